#!/usr/bin/env python3
"""Brings the repository's own definitions and lemmas to the spelling of today's Rattle: words in snake case, a dash only between two names.

usage: python3 tools/respell.py      at the top of the repository, once, after the kit's port.py

The names are in tools/respell.txt: 'old new', or 'crate: old new' where a name of that crate alone is meant. In .antt and .rt files and in
must-fail edits a whole name of the code is turned; in comments and documents, a name between backquotes. Strings stay. A name that a file
imports from std or from the logic stays in that file. In a Proof.antt the names of goals stay, and names of its own lemmas are turned by
the rule, since these files are written anew from them.
"""

import os
import re

NAME = r"[^\s(){}.;,@\"«»\[\]\\]+"
TOKEN = re.compile(r'"(?:[^"\\]|\\.)*"|' + NAME)
WORD = re.compile(r"[A-Za-zμ][A-Za-z0-9_′'-]*")
IMPORT = re.compile(r"\buse\s+([^\s;]+?)\.\{([^}]*)\}")
TOP = os.path.join(os.path.dirname(os.path.abspath(__file__)), "..")


def table():
    whole, of_crate = {}, {}
    with open(os.path.join(TOP, "tools", "respell.txt"), encoding="utf-8") as f:
        for line in f:
            words = line.split("#")[0].split()
            if len(words) == 3:
                of_crate.setdefault(words[0].rstrip(":"), {})[words[1]] = words[2]
            elif words:
                whole[words[0]] = words[1]
    return whole, of_crate


def snake(name):
    name = re.sub(r"(?<=[a-z0-9])([A-Z]+)", lambda m: "_" + m[1].lower(), name)
    return name.replace("-", "_").replace("′", "'")


def foreign(text):
    """The names that a file imports from elsewhere than this repository."""
    out = set()
    for module, names in IMPORT.findall(text):
        if not module.startswith("Rattle.") or module.startswith("Rattle.std"):
            out |= {n.strip().split(" as ")[0].strip() for n in names.split(",")}
    return out


def goals(text):
    """The names that a Proof.antt gives to goals and to the function's proof."""
    signature = re.compile(r"(?m)^(?:pub |abbrev )*(\S+) :((?:.*\n)(?:(?:unfolding.*|  .*)\n)*)")
    return {n for n, of in signature.findall(text) if n.endswith(("-spec", "_spec")) or re.search(r"\btie\.(Need|invariant|decreases|spec|closed?)", of.split("\n")[0])}


def own_lemmas(text, stay):
    """The names of a Proof.antt's own lemmas that the rule turns."""
    found = re.findall(r"(?m)^ *(?:pub |abbrev |unfoldable |record |data )*([a-zμ]\S*)(?: [^\s:=]+)* :(?:\s)", text)
    turned = {n: snake(n) for n in found if n not in stay and snake(n) != n}
    used = set(TOKEN.findall(text))
    return {o: n for o, n in turned.items() if n not in used}


def code(text, names):
    return TOKEN.sub(lambda m: names.get(m[0], m[0]), text)


def quoted(text, names):
    """Turns the names between backquotes."""
    word = lambda m: names.get(m[0], m[0])
    return re.sub(r"`[^`\n]*`", lambda m: WORD.sub(word, m[0]), text)


def source(text, names, mark):
    out = []
    for line in text.split("\n"):
        at = comment_at(line, mark)
        out.append(code(line[:at], names) + quoted(line[at:], names))
    return "\n".join(out)


def comment_at(line, mark):
    """Where the line's comment begins, if it has one."""
    for m in re.finditer(r'"(?:[^"\\]|\\.)*"|' + ("(?:(?<=\\s)|^)--(?=\\s|-|$)" if mark == "--" else "//"), line):
        if not m[0].startswith('"'):
            return m.start()
    return len(line)


def edit(text, names):
    """An edit's lines of text, 'old: TEXT' and 'new: TEXT'."""
    return "\n".join(l[:5] + code(l[5:], names) if l.startswith(("old: ", "new: ")) else l for l in text.split("\n"))


def turned(path, text, names):
    if path.endswith(".antt"):
        names = {o: n for o, n in names.items() if o not in foreign(text)}
        if path.endswith("/Proof.antt"):
            stay = goals(text)
            names = {**own_lemmas(text, stay | foreign(text)), **names}
            names = {o: n for o, n in names.items() if o not in stay}
        return source(text, names, "--")
    if path.endswith(".rt"):
        return source(text, {o: n for o, n in names.items() if o not in foreign(text)}, "//")
    if path.endswith(".edit"):
        return edit(text, names)
    return quoted(text, names)


def main():
    whole, of_crate = table()
    for folder, dirs, files in os.walk(TOP):
        dirs[:] = sorted(d for d in dirs if d not in ("out", "target", ".git", "tools"))
        for f in sorted(files):
            path = os.path.join(folder, f)
            if not f.endswith((".antt", ".rt", ".edit", ".md")):
                continue
            parts = os.path.relpath(path, TOP).split(os.sep)
            crate = parts[1] if parts[0] == "crates" else ""
            with open(path, encoding="utf-8", newline="") as it:
                text = it.read()
            # A crate's own row goes first, so that what it frees can be taken.
            new = turned(path, text, {**whole, **of_crate.get(crate, {})})
            if new != text:
                with open(path, "w", encoding="utf-8", newline="") as it:
                    it.write(new)


if __name__ == "__main__":
    main()
