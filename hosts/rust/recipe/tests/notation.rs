//! The readable notation: names that must be known, forms that are read or refused, all faults of a text, long chains.

mod common;

use std::fs;
use std::time::{Duration, Instant};

use common::{directory, recipe, root, status, stderr, stdout, Generator, Random};
use recipe::asm::{assemble, placed};
use recipe::source::{Faults, TOLD};
use recipe::table::{decode, depths};
use recipe::{listing, raw};
use recipe_runner::{records, Ending, State};

/// The faults of a text as they are told, without the file's name and the text's lines.
fn told(text: &str) -> Vec<String> {
    lines(&placed(text).err().unwrap_or_default())
}

/// The warnings of a text without a fault.
fn warned(text: &str) -> Vec<String> {
    lines(&placed(text).unwrap_or_else(|faults| panic!("{text}: {faults:?}")).warnings)
}

fn lines(faults: &Faults) -> Vec<String> {
    faults.heads("").lines().map(String::from).collect()
}

/// The texts of the recipes that come with the tool.
fn recipes() -> Vec<String> {
    let files = fs::read_dir(root("recipes")).unwrap().map(|entry| entry.unwrap().path());
    let texts = files.filter(|path| path.extension().is_some_and(|e| e == "recipe"));
    let mut texts: Vec<String> = texts.map(|path| fs::read_to_string(path).unwrap()).collect();
    texts.sort();
    texts
}

/// What an expression gives, none where it has no value.
fn value(expression: &str) -> Option<i32> {
    let table = assemble(&format!("procedure main\n  set valve0 {expression}")).unwrap();
    let mut log = [0; 64];
    let ran = State::start(&table).unwrap().run(&table, 9, &mut log).unwrap();
    assert!(matches!(ran.ending, Ending::Finished | Ending::Novalue { .. }));
    let set = records(&log, ran.records).next();
    set.map(|record| record.value)
}

// Names.

const UNKNOWN: &str = "it is never set, spawned into or declared";

#[test]
fn a_variable_that_is_read_must_be_known() {
    let relief = "procedure main\n  set pressure 900\n  if 800 < presure\n    set valve0 1\n  guard presure\n";
    let sentence = |name: &str, hint: &str| format!("there is no variable \"{name}\": {UNKNOWN}; {hint}");
    let declare = "one that the host writes is declared, \"variable NAME NUMBER\"";
    for (text, place, due) in [
        (relief, ":3:12: ", sentence("presure", "did you mean \"pressure\"?")),
        ("procedure main\n  await x", ":2:9: ", sentence("x", declare)),
        ("procedure main\n  set x xy + 1", ":2:9: ", sentence("xy", declare)),
        ("procedure main\n  set x valvo1", ":2:9: ", sentence("valvo1", "did you mean \"valve1\"?")),
        ("procedure main\n  set x parametr", ":2:9: ", sentence("parametr", "did you mean \"parameter\"?")),
        ("procedure main level\n  set x levl", ":2:9: ", sentence("levl", "did you mean \"level\"?")),
        ("variable sensor 9\nprocedure main\n  guard sensr", ":3:9: ", sentence("sensr", "did you mean \"sensor\"?")),
        ("procedure main\n  spawn drum main 0\n  await drumm", ":3:9: ", sentence("drumm", "did you mean \"drum\"?")),
    ] {
        assert_eq!(told(text), [format!("{place}{due}")], "{text}");
    }
    // The parameter of another procedure cannot stand there.
    assert_eq!(
        told("procedure main\n  set x levl\nprocedure a level"),
        [format!(":2:9: {}", sentence("levl", declare))]
    );
}

#[test]
fn sets_spawns_and_declarations_make_a_variable_known() {
    for text in [
        "procedure main\n  set x x + 1",
        "procedure main\n  guard x\nprocedure a\n  set x 1",
        "procedure main\n  await x\n  spawn x main 0",
        "procedure main\n  await x\nvariable x 12",
        "procedure main\n  guard valve7 + parameter",
    ] {
        assert_eq!((told(text), warned(text)), (vec![], vec![]), "{text}");
    }
}

#[test]
fn a_variable_that_is_set_and_not_used_is_warned_of() {
    let sentence = |name: &str, hint: &str| format!("warning: \"{name}\" is set and never read or awaited; {hint}");
    let declare = "one that the host reads is declared, \"variable NAME NUMBER\"";
    for (text, place, due) in [
        (
            "procedure main\n  set presure 900\n  set pressure 0\n  guard pressure",
            ":2:7: ",
            sentence("presure", "did you mean \"pressure\"?"),
        ),
        ("procedure main\n  set valv0 1\n  set valv0 2", ":2:7: ", sentence("valv0", "did you mean \"valve0\"?")),
        ("procedure main\n  set x 1", ":2:7: ", sentence("x", declare)),
        ("procedure main level\n  set levl level", ":2:7: ", sentence("levl", "did you mean \"level\"?")),
    ] {
        assert_eq!(warned(text), [format!("{place}{due}")], "{text}");
    }
    for text in [
        "procedure main\n  set valve0 1",
        "procedure main\n  set x 1\nvariable x 8",
        "procedure main p\n  set p 1",
        "procedure main\n  set parameter 1",
        "procedure main\n  spawn x main 0",
        "procedure main\n  set x 0\n  spawn x main 0",
        "procedure main\n  set x 1\n  await x",
        "procedure main\n  set x 1\n  set valve0 x",
    ] {
        assert_eq!(warned(text), [""; 0], "{text}");
    }
    assert!(placed("1(0,2,0) 3(8,1,0) 9(0,0,1)").unwrap().warnings.is_empty());
}

#[test]
fn misspelt_procedures_and_statements_are_told_with_the_nearest() {
    for (text, due) in [
        (
            "procedure main\n  spawn x pres 5\nprocedure press",
            ":2:11: there is no procedure \"pres\"; did you mean \"press\"?",
        ),
        ("procedure main\n  spawn x roll 5\nprocedure press", ":2:11: there is no procedure \"roll\""),
        ("procedure main\n  susspend", ":2:3: \"susspend\" is no statement; did you mean \"suspend\"?"),
        ("procedure main\n  Set valve0 1", ":2:3: \"Set\" is no statement; did you mean \"set\"?"),
        ("procedur main\n  skip", ":1:1: \"procedur\" is no statement; did you mean \"procedure\"?"),
        ("varable x 9\nprocedure main\n  guard x", ":1:1: \"varable\" is no statement; did you mean \"variable\"?"),
        (
            "procedure main\n  open valve0",
            ":2:3: \"open\" is no statement: one of skip, set, if, while, spawn, suspend, await, guard, procedure, \
             variable is due here",
        ),
    ] {
        assert_eq!(told(text), [due], "{text}");
    }
}

/// A name that means something else is told at its first place alone.
#[test]
fn a_misused_name_is_told_once() {
    for (line, column, part) in [
        ("set level 1", 7, "\"level\" is the parameter of another procedure"),
        ("guard 1 + level", 13, "\"level\" is the parameter of another procedure"),
        ("await press", 9, "\"press\" is the name of a procedure, and a variable is due here"),
        ("spawn press press 5", 9, "\"press\" is the name of a procedure, and a variable is due here"),
        ("spawn x sensor 5", 11, "\"sensor\" is the name of a variable, and a procedure is due here"),
        ("spawn x level 5", 11, "\"level\" is the name of the parameter of a procedure, and a procedure is due here"),
        ("if valve9", 6, "there is no \"valve9\": the valves are valve0 to valve7"),
        ("set valve9 1", 7, "there is no \"valve9\": the valves are valve0 to valve7"),
        ("set valve0 parameter", 14, "the parameter of this procedure has the name \"own\""),
    ] {
        let lines = format!("  {line}\n").repeat(25);
        let text = format!("variable sensor 9\nprocedure main own\n{lines}  guard missing\nprocedure press level\n");
        let faults = told(&text);
        assert_eq!(faults.len(), 2, "{line}: {faults:#?}");
        assert_eq!(faults[0], format!(":3:{column}: {part}"));
        assert!(faults[1].starts_with(":28:9: there is no variable \"missing\""), "{faults:#?}");
    }
    let headers: String = (0..25).map(|number| format!("procedure p{number} sensor\n  guard sensor\n")).collect();
    let faults = told(&format!("variable sensor 9\n{headers}"));
    assert_eq!(faults, [":2:14: \"sensor\" is already the name of a variable"]);
}

#[test]
fn main_is_the_first_procedure_and_there_once() {
    let first = "the first procedure is the main one: \"main\" must stand before the others";
    let twice = "\"main\" is already the name of a procedure";
    for (text, due) in [
        ("procedure main\nprocedure main", &[format!(":2:11: {twice}")][..]),
        ("procedure main\nprocedure a\nprocedure main", &[format!(":3:11: {twice}")]),
        ("procedure a\nprocedure main", &[format!(":2:11: {first}")]),
        ("procedure a\nprocedure main\nprocedure main", &[format!(":2:11: {first}"), format!(":3:11: {twice}")]),
    ] {
        assert_eq!(told(text), due, "{text}");
    }
}

#[test]
fn listings_have_no_warnings() {
    let mut generator = Generator::new(7);
    for _ in 0..500 {
        let text = listing::list(&generator.table()).unwrap();
        assert_eq!(warned(&text), [""; 0], "{text}");
    }
    for text in recipes() {
        assert_eq!(warned(&text), [""; 0], "{text}");
    }
}

#[test]
fn every_command_that_assembles_tells_warnings() {
    let d = directory("notation_warnings");
    fs::write(d.join("t.recipe"), "procedure main\n  set presure 1 # high\n  set valve0 1\n").unwrap();
    let told =
        "t.recipe:2:7: warning: \"presure\" is set and never read or awaited; one that the host reads is declared, \
                \"variable NAME NUMBER\"\n    set presure 1 # high\n        ^\n";
    for arguments in [
        &["asm", "t.recipe", "-o", "t.table"][..],
        &["dis", "t.recipe"],
        &["check", "t.recipe"],
        &["check", "t.table", "t.recipe"],
        &["run", "t.recipe"],
        &["timeline", "t.recipe"],
    ] {
        let output = recipe(&d, arguments, b"");
        assert_eq!((status(&output), &*stderr(&output)), (0, told), "{arguments:?}");
    }
    assert_eq!(fs::read(d.join("t.table")).unwrap().len(), 40);
    let many: String = (0..23).map(|number| format!("  set x{number} 1\n")).collect();
    fs::write(d.join("many.recipe"), format!("procedure main\n{many}")).unwrap();
    let warned = stderr(&recipe(&d, &["check", "many.recipe"], b""));
    assert_eq!((warned.lines().count(), warned.lines().last()), (61, Some("... and 3 more")));
}

// Forms.

/// Values at which comparisons and quotients turn, and one that is missing.
const VALUES: [&str; 11] =
    ["-2147483648", "-2147483647", "-7", "-2", "-1", "0", "1", "2", "7", "2147483647", "(1 / 0)"];

#[test]
fn comparisons_mean_what_they_say() {
    for a in VALUES {
        for b in VALUES {
            let both = a.parse::<i32>().ok().zip(b.parse::<i32>().ok());
            for (sign, truth) in [
                ("<", both.map(|(a, b)| a < b)),
                ("<=", both.map(|(a, b)| a <= b)),
                (">", both.map(|(a, b)| a > b)),
                (">=", both.map(|(a, b)| a >= b)),
                ("==", both.map(|(a, b)| a == b)),
                ("!=", both.map(|(a, b)| a != b)),
            ] {
                assert_eq!(value(&format!("{a} {sign} {b}")), truth.map(i32::from), "{a} {sign} {b}");
            }
        }
    }
    assert_eq!(value("5 + (2 <= 3)"), Some(6));
    assert_eq!(value("1 + 1 <= 2 and 3 != 4"), Some(1));
    assert_eq!(value("not 3 >= 2 or 0x10 > 15"), Some(1));
}

/// What the refusal of "%" says to write instead.
#[test]
fn the_remainder_can_be_written() {
    for a in VALUES {
        for b in VALUES {
            let both = a.parse::<i32>().ok().zip(b.parse::<i32>().ok());
            let due = both.and_then(|(a, b)| match (a, b) {
                (i32::MIN, -1) => Some(-1),
                _ => a.checked_rem(b),
            });
            assert_eq!(value(&format!("{a} - {a} / {b} * {b}")), due, "{a} % {b}");
        }
    }
}

#[test]
fn other_comparisons_are_listed_as_those_of_records() {
    let text = "procedure main\n  guard valve1 <= 2 and valve2 > 0x1f\n  guard valve3 >= 4 or valve5 != -0x6\n";
    let listed = "procedure main\n    guard not (2 < valve1) and 31 < valve2\n    \
                  guard not (valve3 < 4) or not (valve5 == -6)\n";
    let table = assemble(text).unwrap();
    assert_eq!(listing::list(&table).unwrap(), listed);
    assert_eq!(assemble(listed), Ok(table));
}

/// A line of a body, the column of its fault and what is said; nothing else is.
#[rustfmt::skip]
const REFUSED: &[(&str, usize, &str)] = &[
    ("set x 5 % 3", 11, "there is no \"%\": write the remainder of a / b as \"a - a / b * b\""),
    ("set x 5 ** 3", 11, "\"a * a\""),
    ("if x && 1", 8, "\"a and b\""),
    ("if x || 1", 8, "\"a or b\""),
    ("if !x", 6, "write \"not\""),
    ("if not !x", 10, "write \"not\""),
    ("if x = 1", 8, "equal is \"==\""),
    ("if x <> 1", 8, "\"a != b\""),
    ("if x => 1", 8, "\"a >= b\""),
    ("if x =< 1", 8, "\"a <= b\""),
    ("if x === 1", 8, "\"a == b\""),
    ("if x & 1", 8, "no operators on bits"),
    ("if x >> 1", 8, "no operators on bits"),
    ("set x = 1", 9, "a set is \"set NAME EXPRESSION\""),
    ("x = 1", 5, "a set is \"set NAME EXPRESSION\""),
    ("x := 1", 5, "\"set NAME EXPRESSION\""),
    ("x += 1", 5, "\"set x x + y\""),
    ("x -= 1", 5, "\"set x x - y\""),
    ("x *= 1", 5, "\"set x x * y\""),
    ("x /= 1", 5, "\"set x x / y\""),
    ("x++", 4, "\"set x x + 1\""),
    ("x--", 4, "\"set x x - 1\""),
    ("set x++", 8, "\"set x x + 1\""),
    ("skip;", 7, "a statement ends with its line"),
    ("skip; skip", 7, "a statement ends with its line"),
    ("if x:", 7, "indentation tells what a body is"),
    ("if x {", 8, "indentation tells what a body is"),
    ("}", 3, "indentation tells what a body is"),
    ("if true", 6, "write 1"),
    ("while x == false", 14, "write 0"),
    ("set true 1", 7, "word of the notation"),
    ("else", 3, "\"set c CONDITION\", then write \"if c\" and \"if not c\""),
    ("else:", 3, "there is no \"else\""),
    ("else if x", 3, "there is no \"else if\""),
    ("elif x", 3, "there is no \"elif\""),
    ("set x 1.5", 10, "whole numbers"),
    ("set x 1 // 2", 11, "a comment begins with \"#\""),
    ("set x x ? 1", 11, "there is no \"?\""),
    ("spawn x main, 1", 15, "separated by spaces"),
    ("set x 0x80000000", 9, "-0x80000000 to 0x7fffffff"),
    ("set x -0x80000001", 9, "-0x80000000 to 0x7fffffff"),
    ("set x 0X1F", 9, "as 0x1F"),
    ("set x 0x", 9, "as 0x1F"),
    ("if 1 <= x == 3", 13, "do not chain"),
    ("if 1 + not x", 10, "binds less tightly"),
    ("\tskip", 3, "it must be of spaces, and this is a tab"),
];

#[test]
fn other_forms_are_refused_with_what_to_write() {
    for (line, column, part) in REFUSED {
        let text = format!("procedure main\n  set x 1\n  {line}\n    skip\n  await x\n");
        let faults = told(&text);
        let place = format!(":3:{column}: ");
        assert_eq!((faults.len(), faults[0].starts_with(&place)), (1, true), "{line}: {faults:?}");
        assert!(faults[0].contains(part), "{line}: {faults:?}");
    }
}

#[test]
fn tabs_may_stand_between_words() {
    assert_eq!(assemble("procedure\tmain\n  set\tvalve0\t1\t# one"), assemble("procedure main\n  set valve0 1"));
}

// All faults.

#[test]
fn all_faults_are_told_in_their_order() {
    let text = "\
variable pressure 64
procedure main
    if 800 < presure %
        susspend
    else
        set valve9 1
      skip
      skip
    spawn x pres 5; skip
procedure press p q
    set valve1 p
    set pressure levl
procedure press
    spawn y press z
";
    let starts = [
        ":1:19: number out of range",
        ":3:14: there is no variable \"presure\"",
        ":3:22: there is no \"%\"",
        ":4:9: \"susspend\" is no statement",
        ":5:5: there is no \"else\"",
        ":6:13: there is no \"valve9\"",
        ":7:7: bad indentation: the lines of this body have 8 spaces",
        ":9:13: there is no procedure \"pres\"; did you mean \"press\"?",
        ":9:19: there is no \";\"",
        ":10:19: the line should end before \"q\"",
        ":12:18: there is no variable \"levl\"",
        ":13:11: \"press\" is already the name of a procedure",
        ":14:19: there is no variable \"z\"",
    ];
    let faults = told(text);
    assert_eq!(faults.len(), starts.len(), "{faults:#?}");
    for (fault, start) in faults.iter().zip(starts) {
        assert!(fault.starts_with(start), "{fault}");
    }
}

#[test]
fn of_more_than_twenty_faults_the_number_is_told() {
    let d = directory("notation_many");
    let text = |count: usize| format!("procedure main\n{}", "  open valve0\n".repeat(count));
    let raw = |count: usize| format!("1(0,0,0)\n{}", "2(0,x,0)\n".repeat(count));
    for (name, text) in [("text", &text as &dyn Fn(usize) -> String), ("raw", &raw)] {
        for count in [19, 20, 21, 27] {
            fs::write(d.join("t.recipe"), text(count)).unwrap();
            let output = recipe(&d, &["asm", "t.recipe"], b"");
            let lines: Vec<String> = stderr(&output).lines().map(String::from).collect();
            let more = (count > TOLD).then(|| format!("... and {} more", count - TOLD));
            assert_eq!((status(&output), lines.len()), (1, 3 * count.min(TOLD) + usize::from(count > TOLD)), "{name}");
            assert_eq!(lines.last().filter(|line| line.starts_with("...")), more.as_ref(), "{name}");
            let heads: Vec<&String> = lines.iter().filter(|line| line.starts_with("t.recipe:")).collect();
            assert!((2..).zip(heads).all(|(line, head)| head.starts_with(&format!("t.recipe:{line}:"))), "{name}");
        }
    }
}

#[test]
fn of_several_files_each_fault_has_a_line() {
    let d = directory("notation_files");
    fs::write(d.join("two.recipe"), "procedure main\n  set valve8 1\n  skip;\n").unwrap();
    fs::write(d.join("many.recipe"), "procedure main\n".to_string() + &"  open valve0\n".repeat(22)).unwrap();
    fs::write(d.join("good.recipe"), "procedure main\n").unwrap();
    let output = recipe(&d, &["check", "two.recipe", "many.recipe", "good.recipe"], b"");
    let lines: Vec<String> = stdout(&output).lines().map(String::from).collect();
    assert_eq!((status(&output), lines.len(), stderr(&output)), (1, 2 + 21 + 1, String::new()));
    assert!(lines[0].starts_with("two.recipe:2:7: ") && lines[1].starts_with("two.recipe:3:7: "), "{lines:?}");
    assert!(lines[2..22].iter().all(|line| line.starts_with("many.recipe:")));
    assert_eq!(lines[22], "many.recipe: ... and 2 more");
    assert!(lines[23].starts_with("good.recipe: accepted: "));
    let alone = stdout(&recipe(&d, &["check", "two.recipe"], b""));
    assert_eq!(alone.lines().count(), 6, "{alone}");
}

/// The library's refusal is told where the text has no fault of its own.
#[test]
fn the_library_is_asked_last() {
    assert!(told("1(0,1,0) 8(65,0,0)")[0].contains("refused 14 at record 1"));
    let faults = told("1(0,1,0) 8(65,0,0)\n2(0,x,0)");
    assert_eq!((faults.len(), faults[0].starts_with(":2:5: a decimal number")), (1, true), "{faults:?}");
}

/// A text whose lines depend on each other in every way.
const DEPENDENT: &str = "\
variable sensor 12
procedure main
    set count 0
    while count < 3
        spawn drum roll count
        if sensor < 4
            await drum
            set count count + 1
    guard 2 < pressure
    await worker
procedure roll turns
    set pressure turns
    spawn worker press turns
procedure press
    set valve0 parameter
";

/// What is done to a line to bring it to fault.
fn harmed(line: &str) -> Vec<String> {
    let indent = &line[..line.len() - line.trim_start().len()];
    let code = line.trim_start();
    let (word, rest) = code.split_once(' ').unwrap_or((code, ""));
    let mut lines: Vec<String> = ["%", "; skip", ":", "= 5", "\u{1}", "é é"].map(|end| format!("{line} {end}")).into();
    lines.push(format!("{indent}{}{} {rest}", word.chars().take(1).collect::<String>(), word));
    lines.push(format!("{indent}{} {rest}", word.chars().skip(1).collect::<String>()));
    lines.push(format!("{indent}{word} = {rest}"));
    lines.push(format!("{indent}@ {code}"));
    lines.push(format!("\t{indent}{code}"));
    if !indent.is_empty() {
        lines.push(format!("{indent}{} {rest}", "x".repeat(9)));
        lines.push(format!("{indent}\t{code}"));
    }
    lines
}

/// A line at fault brings no other line to fault.
#[test]
fn a_line_at_fault_is_told_alone() {
    assert_eq!((told(DEPENDENT), warned(DEPENDENT)), (vec![], vec![]));
    for text in recipes().iter().map(String::as_str).chain([DEPENDENT]) {
        let lines: Vec<&str> = text.lines().collect();
        for (index, line) in lines.iter().enumerate().filter(|(_, line)| !line.trim().is_empty()) {
            let code = line.split('#').next().unwrap().trim_end();
            for harmed in if code.is_empty() { vec![] } else { harmed(code) } {
                let mut lines = lines.clone();
                lines[index] = &harmed;
                let faults = told(&lines.join("\n"));
                let place = format!(":{}:", index + 1);
                assert!(!faults.is_empty(), "{harmed}");
                assert!(faults.iter().all(|fault| fault.starts_with(&place)), "{harmed:?}: {faults:#?}\n{text}");
            }
        }
    }
}

#[test]
fn two_lines_at_fault_are_told_alone() {
    let lines: Vec<&str> = DEPENDENT.lines().collect();
    for first in 0..lines.len() {
        for second in first + 1..lines.len() {
            for (one, other) in harmed(lines[first]).iter().zip(harmed(lines[second]).iter().rev()) {
                let mut lines = lines.clone();
                (lines[first], lines[second]) = (one, other);
                let faults = told(&lines.join("\n"));
                let places = [first, second].map(|index| format!(":{}:", index + 1));
                for fault in &faults {
                    assert!(places.iter().any(|place| fault.starts_with(place)), "{one:?} {other:?}: {faults:#?}");
                }
                assert!(places.iter().all(|place| faults.iter().any(|fault| fault.starts_with(place))));
            }
        }
    }
}

/// Lines at fault that give names a meaning behind what is wrong, and lines that need it.
#[rustfmt::skip]
const GIVING: &[(&str, &[&str])] = &[
    ("set a 1; set b 2", &["set valve0 a + b"]),
    ("set a 1, set b 2", &["set valve0 a + b"]),
    ("set a 5 set b 6", &["set valve0 a + b", "await b"]),
    ("a = 1; b = 2", &["set valve0 a + b"]),
    ("a, b = 1, 2", &["set valve0 a + b"]),
    ("let a = b; set b 1", &["set valve0 a + b"]),
    ("if 1: set b 2", &["guard b"]),
    ("if 1 set b 2", &["guard b"]),
    ("else: set b 2", &["guard b"]),
    ("else if 1: set b 2", &["guard b"]),
    ("while 1 { set b 2; suspend }", &["guard b"]),
    ("await p, set high 1", &["guard high"]),
    ("set 5 a", &["guard a"]),
    ("spawn press t 5", &["await t", "spawn u press 5"]),
    ("spawn 5 t press", &["await t", "spawn u press 5"]),
    ("spawn valve0 t press", &["await t"]),
    ("set set flow 600", &["guard flow"]),
    ("spawn spawn presser press 5", &["await presser"]),
    ("let flow 5", &["guard flow"]),
    ("sett a b", &["guard a", "await b"]),
    ("1: set b 2", &["guard b"]),
    ("guard valve9 set b 2", &["guard b"]),
    ("guard true; set b 2", &["guard b"]),
    ("iff 1: set b 2", &["guard b"]),
    ("Guard b = 2", &["guard b"]),
    ("awit t press 5", &["await t"]),
];

/// Such a line anywhere in a text is told alone.
#[test]
fn what_a_line_at_fault_names_is_known() {
    for (harmed, users) in GIVING {
        for user in *users {
            for lines in [[*harmed, user], [user, harmed]] {
                let [one, other] = lines;
                let text = format!("variable p 9\nprocedure main\n  {one}\n  {other}\nprocedure press\n  skip\n");
                let place = if one == *harmed { ":3:" } else { ":4:" };
                let faults = told(&text);
                assert!(!faults.is_empty(), "{text}");
                assert!(faults.iter().all(|fault| fault.starts_with(place)), "{text}: {faults:#?}");
            }
        }
    }
}

/// Two lines in one, or with what begins a line written twice.
#[test]
fn lines_that_are_joined_are_told_alone() {
    for text in recipes().iter().map(String::as_str).chain([DEPENDENT]) {
        let lines: Vec<&str> = text.lines().map(|line| line.split('#').next().unwrap().trim_end()).collect();
        for (index, line) in lines.iter().enumerate().filter(|(_, line)| !line.is_empty()) {
            let indent = &line[..line.len() - line.trim_start().len()];
            let (word, rest) = line.trim_start().split_once(' ').unwrap_or((line.trim_start(), ""));
            let next = lines.get(index + 1).map_or("", |next| next.trim_start());
            let joined = ["; ", ", ", " ", ": ", " { "].map(|between| format!("{line}{between}{next}"));
            let joined = joined.into_iter().map(|joined| (joined, 2)).filter(|_| !next.is_empty());
            let doubled =
                [word, "let", "def", "if", "await"].map(|other| (format!("{indent}{other} {word} {rest}"), 1));
            for (harmed, count) in joined.chain(doubled) {
                let mut lines = lines.clone();
                lines.splice(index..index + count, [&*harmed]);
                let faults = told(&lines.join("\n"));
                let place = format!(":{}:", index + 1);
                assert!(!faults.is_empty(), "{harmed}");
                assert!(faults.iter().all(|fault| fault.starts_with(&place)), "{harmed:?}: {faults:#?}\n{text}");
            }
        }
    }
}

#[test]
fn a_header_at_fault_is_told_alone() {
    let callers = "procedure first\n  spawn x look 1\n  await x\n";
    for header in ["let look depth", "def look depth:", "procedur look depth", "look depth", "procedure look depth {"] {
        let body = "  set valve0 depth\n  if depth < parameter\n    set depth 5\n  guard depth\n";
        for text in [format!("{callers}{header}\n{body}"), format!("{header}\n{body}{callers}")] {
            let place = format!(":{}:", 1 + text.lines().position(|line| line == header).unwrap());
            let faults = told(&text);
            assert_eq!((faults.len(), faults[0].starts_with(&place)), (1, true), "{text}: {faults:#?}");
        }
    }
    for sign in [";", ",", ""] {
        for (declared, second) in
            [("variable sensors 9", "variable level 10"), ("variable sensors 9", "procedure look p")]
        {
            let header = format!("{declared}{sign} {second}");
            let body = "  set valve0 sensors\n  if sensors < parameter\n    set valve1 2\n";
            let text = format!("procedure main q\n  set q 1\n{header}\n{body}  await sensors\n");
            let faults = told(&text);
            assert_eq!((faults.len(), faults[0].starts_with(":3:")), (1, true), "{text}: {faults:#?}");
        }
    }
}

/// What is misspelt elsewhere is told beside a line at fault: in what was read of it, and where it does not stand in it.
#[test]
fn a_line_at_fault_hides_no_other() {
    let elsewhere = ":4:9: there is no variable \"presure\"";
    for (harmed, users) in GIVING {
        let text =
            format!("variable p 9\nprocedure main\n  {harmed}\n  guard presure\n  {}\nprocedure press", users[0]);
        let faults = told(&text);
        assert!(faults.iter().any(|fault| fault.starts_with(elsewhere)), "{text}: {faults:#?}");
    }
    for (line, column) in
        [("set a presure %", 9), ("if presure:", 6), ("guard 1 < presure; skip", 13), ("await presure 5", 9)]
    {
        let text = format!("procedure main\n  {line}\n  guard presure\n  await a\n  set a 1");
        let faults = told(&text);
        let due = format!(":2:{column}: there is no variable \"presure\"");
        assert_eq!((faults.len(), faults[0].starts_with(&due)), (2, true), "{text}: {faults:#?}");
    }
    let faults = told("procedure main\n  iff 1 < presure\n    skip\n  guard presure");
    let due = ":2:11: there is no variable \"presure\"";
    assert_eq!((faults.len(), faults[1].starts_with(due)), (2, true), "{faults:#?}");
    // What is wrong with a name whatever it means, and two spawns that would excuse each other.
    let faults = told("procedure main\n  skip; set valve9 1\n  set valve9 2");
    assert_eq!((faults.len(), faults[1].starts_with(":3:7: there is no \"valve9\"")), (2, true), "{faults:#?}");
    let faults = told("procedure main\n  spawn main press 5\n  spawn press main 5\nprocedure press");
    assert_eq!(faults.len(), 2, "{faults:#?}");
}

/// Where a line has other spaces before it, it or the next one with those that are due is told, and no more.
#[test]
fn a_wrong_indentation_is_told_once() {
    for text in recipes().iter().map(String::as_str).chain([DEPENDENT]) {
        let lines: Vec<&str> = text.lines().collect();
        for (index, line) in lines.iter().enumerate() {
            let code = line.trim_start();
            for shifted in (0..14).map(|indent| format!("{}{code}", " ".repeat(indent))) {
                let mut lines = lines.clone();
                lines[index] = &shifted;
                let faults = told(&lines.join("\n"));
                assert!(faults.len() <= 1, "{shifted:?}: {faults:#?}\n{text}");
                assert!(faults.iter().all(|fault| fault.contains("bad indentation")), "{faults:?}");
            }
        }
    }
    for (text, place) in [
        ("procedure main\nskip\nskip\n  skip", ":2:1: "),
        ("procedure main\n  skip\nif 1\n    skip\nskip\n  skip", ":3:1: "),
        ("procedure main\n    skip\n   if 1\n        skip\n    skip\n   skip", ":3:4: "),
        ("procedure main\n    skip\n      if 1\n        skip\n      skip\n    skip", ":3:7: "),
    ] {
        let faults = told(text);
        assert_eq!((faults.len(), faults[0].starts_with(place)), (1, true), "{text}: {faults:?}");
    }
}

// Chains.

/// A statement in so many ifs.
fn within_ifs(count: usize, statement: &str) -> String {
    let ifs: String = (1..=count).map(|depth| format!("{}if 1\n", " ".repeat(depth))).collect();
    format!("procedure main\n{ifs}{}{statement}\n", " ".repeat(count + 1))
}

fn depth(table: &[u8]) -> usize {
    depths(&decode(table)).into_iter().max().unwrap()
}

/// Chains of every length, with operands that are true, untrue or missing.
#[test]
fn long_conditions_keep_their_value() {
    let mut random = Random(11);
    for (word, deciding) in [("and", 0), ("or", 1)] {
        for count in (2..40).chain([100, 1_000, 2_000]) {
            let rare = random.pick(&["0", "1", "(1 / 0)", "-3"]);
            let usual = if deciding == 0 { "2" } else { "0" };
            let operands: Vec<&str> = (0..count).map(|_| if random.below(count) == 0 { rare } else { usual }).collect();
            let truth = |operand: &&str| operand.parse::<i32>().ok().map(|value| i32::from(value != 0));
            let values: Option<Vec<i32>> = operands.iter().map(truth).collect();
            let due = values.map(|values| i32::from((values.contains(&deciding)) == (deciding == 1)));
            assert_eq!(value(&operands.join(&format!(" {word} "))), due, "{word} {operands:?}");
        }
    }
}

/// An expression of chains within chains, and its value.
fn condition(random: &mut Random, nesting: usize) -> (String, Option<i32>) {
    if nesting == 0 {
        let (text, value) = random.pick(&[("0", 0), ("1", 1), ("-3", -3), ("(2 <= 3)", 1), ("valve3", 0)]);
        let missing = random.below(200) == 0;
        return if missing { ("1 / 0".to_string(), None) } else { (text.to_string(), Some(value)) };
    }
    let (word, negated) = (random.pick(&["and", "or"]), random.below(2) == 0);
    let parts: Vec<_> = (0..1 + random.below(9)).map(|_| condition(random, nesting - 1)).collect();
    let texts: Vec<String> = parts.iter().map(|(text, _)| format!("({text})")).collect();
    let values: Option<Vec<i32>> = parts.iter().map(|(_, value)| *value).collect();
    let text = texts.join(&format!(" {word} "));
    let value = values.map(|values| match (&values[..], word) {
        ([value], _) => *value,
        (_, "and") => i32::from(values.iter().all(|value| *value != 0)),
        _ => i32::from(values.iter().any(|value| *value != 0)),
    });
    if negated {
        (format!("not ({text})"), value.map(|value| i32::from(value == 0)))
    } else {
        (text, value)
    }
}

#[test]
fn conditions_within_conditions_keep_their_value() {
    let mut random = Random(14);
    let mut balanced = 0;
    for _ in 0..3_000 {
        let nesting = 1 + random.below(3);
        let (text, due) = condition(&mut random, nesting);
        if assemble(&within_ifs(0, &format!("guard {text}"))).is_ok() {
            assert_eq!(value(&text), due, "{text}");
            balanced += usize::from(text.matches(" and ").count() + text.matches(" or ").count() > 60);
        }
    }
    assert!(balanced > 100, "{balanced}");
}

#[test]
fn only_chains_that_would_be_too_deep_are_balanced() {
    let chain = |count: usize| vec!["valve0"; count].join(" and ");
    // A guard's expression has depths 2 to 16: fourteen operators fit.
    let table = assemble(&within_ifs(0, &format!("guard {}", chain(15)))).unwrap();
    let operators = "11(6,28,0) 11(6,26,0) 11(6,24,0)";
    assert!(raw::list(&table).split_whitespace().collect::<Vec<_>>().join(" ").contains(operators));
    assert_eq!(depth(&table), 16);
    for (count, due) in [(16, 6), (17, 7), (32, 7), (33, 8), (1_024, 12), (2_000, 13)] {
        let table = assemble(&within_ifs(0, &format!("guard {}", chain(count)))).unwrap();
        assert_eq!(depth(&table), due, "{count}");
        assert_eq!(assemble(&listing::list(&table).unwrap()), Ok(table));
    }
}

#[test]
fn conditions_in_conditions_are_balanced() {
    let sum = "valve1 + valve2 * 3 < 4";
    let inner = [sum; 12].join(" or ");
    let text = within_ifs(2, &format!("guard {}", vec![format!("not ({inner})"); 11].join(" and ")));
    let table = assemble(&text).unwrap();
    // Two ifs, the guard and its expression's first record, then the chains, a not and the comparison of a sum.
    assert_eq!(depth(&table), 4 + 4 + 1 + 4 + 3);
    assert_eq!(assemble(&listing::list(&table).unwrap()), Ok(table));
}

#[test]
fn long_sums_are_refused_where_they_get_too_deep() {
    for ifs in 0..13 {
        for sign in ["+", "-", "*", "/"] {
            let fitting = 14 - ifs;
            let chain = |operators: usize| format!("set valve0 1{}", format!(" {sign} 1").repeat(operators));
            assert!(assemble(&within_ifs(ifs, &chain(fitting))).is_ok());
            for operators in [fitting + 1, fitting + 9] {
                let faults = told(&within_ifs(ifs, &chain(operators)));
                let column = ifs + 1 + "set valve0 1".len() + 4 * fitting + 2;
                let start = format!(":{}:{column}: the depth is over 16 at this \"{sign}\": a chain", ifs + 2);
                assert_eq!((faults.len(), faults[0].starts_with(&start)), (1, true), "{faults:?}");
                assert!(
                    faults[0].contains("(a + b) + (c + d)") && faults[0].contains("ends of the range"),
                    "{faults:?}"
                );
            }
        }
    }
    // Within a condition that is balanced, and grouped by hand.
    let terms = ["1"; 20].join(" + ");
    let faults = told(&within_ifs(0, &format!("guard {}2 < {terms}", "valve0 and ".repeat(20))));
    assert_eq!((faults.len(), faults[0].contains("at this \"+\"")), (1, true), "{faults:?}");
    let half = ["1"; 10].join(" + ");
    assert_eq!(value(&format!("({half}) + ({half})")), Some(20));
}

#[test]
fn other_nesting_is_refused_where_it_gets_too_deep() {
    for (text, start) in [
        (within_ifs(15, "guard 1"), ":17:23: the depth is over 16 here: bodies"),
        (within_ifs(15, "guard 1\n                guard 2"), ":17:23: the depth is over 16 here: bodies"),
        (within_ifs(16, "skip\n                 skip"), ":17:20: the depth is over 16 here: bodies"),
        (within_ifs(30, "set valve0 1"), ":17:20: the depth is over 16 here: bodies"),
        (within_ifs(0, &format!("guard {}1", "not ".repeat(15))), ":2:64: the depth is over 16 at this operator"),
        (within_ifs(0, &format!("guard {}1", "- ".repeat(15))), ":2:36: the depth is over 16 at this operator"),
        (within_ifs(14, "guard 1 < 2"), ":16:24: the depth is over 16 at this operator"),
        (within_ifs(14, "guard 1 <= 2"), ":16:24: the depth is over 16 at this operator"),
    ] {
        let faults = told(&text);
        assert_eq!((faults.len(), faults[0].starts_with(start)), (1, true), "{faults:?}");
    }
    assert!(assemble(&within_ifs(15, "skip")).is_ok());
    assert!(assemble(&within_ifs(12, "guard 1 and 2 and 3 and 4")).is_ok());
    assert!(told(&within_ifs(12, "guard 1 and 2 and 3 and 4 and 5"))[0].contains("at this operator"));
}

/// What is set before a guard or while is not worked out anew at each test.
#[test]
fn what_to_do_where_it_is_too_deep_suits_the_statement() {
    let sum = vec!["1"; 17].join(" + ");
    let nots = format!("{}1", "not ".repeat(17));
    for expression in [&sum, &nots] {
        for (statement, parts, wrong) in [
            ("guard", &["parentheses", "would not be worked out anew"][..], "or set a part"),
            ("while", &["parentheses", "set it again in the body"], "statement before"),
            ("if", &["parentheses", "in a statement before"], "again"),
            ("set valve0", &["parentheses", "in a statement before"], "again"),
            ("spawn x main", &["parentheses", "in a statement before"], "again"),
        ] {
            let faults = told(&within_ifs(0, &format!("{statement} {expression}")));
            assert_eq!((faults.len(), faults[0].contains("the depth is over 16 at this")), (1, true), "{faults:?}");
            assert!(parts.iter().all(|part| faults[0].contains(part)), "{statement}: {faults:?}");
            assert!(!faults[0].contains(wrong), "{statement}: {faults:?}");
        }
    }
}

#[test]
fn parentheses_too_many_are_to_be_left_out() {
    let within = |count: usize| format!("set valve0 {}1{}", "(".repeat(count), ")".repeat(count));
    assert!(assemble(&within_ifs(0, &within(100))).is_ok());
    let faults = told(&within_ifs(0, &within(101)));
    assert_eq!(faults, [":2:114: the expression is nested over 100 deep: leave out parentheses"]);
}

// Characters and files.

#[test]
fn characters_that_are_not_seen_are_told_by_their_codes() {
    for (hidden, code) in [
        ("\u{1}", "U+0001"),
        ("\u{a0}", "U+00A0"),
        ("\u{ad}", "U+00AD"),
        ("\u{200b}", "U+200B"),
        ("\u{202e}", "U+202E"),
        ("\u{feff}", "U+FEFF"),
        ("\u{3164}", "U+3164"),
    ] {
        for line in [
            format!("{hidden}skip"),
            format!("guard{hidden} 1"),
            format!("guard 1 + {hidden}2"),
            format!("set x{hidden} 1"),
        ] {
            let faults = placed(&format!("procedure main\n  {line}\n")).unwrap_err().show("", "");
            assert_eq!((faults.lines().count(), faults.contains(code)), (1, true), "{line:?}: {faults}");
            assert!(faults.is_ascii(), "{faults:?}");
        }
    }
    assert!(told("procedure main\n  set x\u{20ac} 1")[0].contains('\u{20ac}'));
}

/// A word with such a character is the one that it looks like.
#[test]
fn a_word_with_a_hidden_character_is_told_alone() {
    let text = "\
variable sensor 9
procedure main
  set pressure 5
  if sensor < pressure
    spawn presser pressing pressure
  await presser
procedure pressing target
  set valve0 target
";
    assert_eq!((told(text), warned(text)), (vec![], vec![]));
    let lines: Vec<&str> = text.lines().collect();
    for (index, line) in lines.iter().enumerate() {
        let inside = line.char_indices().filter(|(at, c)| *at > 0 && c.is_alphabetic() && !line[..*at].ends_with(' '));
        for (at, _) in inside {
            let harmed = format!("{}\u{200b}{}", &line[..at], &line[at..]);
            let mut lines = lines.clone();
            lines[index] = &harmed;
            let due = format!(":{}:{}: the character U+200B cannot stand in a recipe", index + 1, at + 1);
            assert_eq!(told(&lines.join("\n")), [due], "{harmed:?}");
        }
    }
}

#[test]
fn line_ends_of_cr_alone_are_told() {
    let sentence = "the lines of this text end with CR: line ends of LF or CR LF are due";
    for (text, column) in [
        ("procedure main\r  set valve0 1\r", 15),
        ("# a comment\rprocedure main\r  skip\r", 12),
        ("1(0,1,0) # main\r2(0,0,0)", 16),
    ] {
        assert_eq!(told(text), [format!(":1:{column}: {sentence}")], "{text:?}");
        assert!(assemble(&text.replace('\r', "\n")).is_ok());
        assert_eq!(assemble(&text.replace('\r', "\r\n")), assemble(&text.replace('\r', "\n")));
    }
    let faults = told("procedure main\r\n  skip\r  skip\r\n");
    assert_eq!(faults, [":2:7: the character U+000D cannot stand in a line: lines end with LF or CR LF"]);
}

#[test]
fn a_file_that_is_no_text_is_told_by_its_kind() {
    let d = directory("notation_kinds");
    let table = assemble("procedure main\n  skip\n").unwrap();
    fs::write(d.join("a.table"), &table).unwrap();
    for arguments in [&["run", "a.table", "--save", "a.state"][..], &["timeline", "a.table", "-o", "a.svg"]] {
        assert_eq!(status(&recipe(&d, arguments, b"")), 0);
    }
    for (file, kind) in [("a.table", "a table"), ("a.state", "a saved state"), ("a.svg", "a picture")] {
        let output = recipe(&d, &["asm", file], b"");
        let due = format!("{file}:1:1: this is {kind} and not text\n");
        assert_eq!((status(&output), stdout(&output), stderr(&output)), (1, String::new(), due));
    }
}

// Any text.

#[test]
fn mutated_recipes_are_survived() {
    let mut random = Random(12);
    let texts: Vec<String> = recipes().into_iter().chain([DEPENDENT.to_string()]).collect();
    let pieces =
        ["else", "%", "<=", "!=", "0x1F", "\t", "\n", "    ", "(", "not ", " and ", "set ", "procedure ", "=", "é"];
    let mut accepted = 0;
    for _ in 0..20_000 {
        let mut text: Vec<char> = texts[random.below(texts.len())].chars().collect();
        for _ in 0..1 + random.below(4) {
            let at = random.below(text.len());
            let end = (at + random.below(6)).min(text.len());
            let piece = if random.below(3) == 0 { "" } else { random.pick(&pieces) };
            text.splice(at..end, piece.chars());
        }
        accepted += usize::from(held(&text.into_iter().collect::<String>()));
    }
    assert!(accepted > 2_000, "{accepted}");
}

#[test]
fn random_characters_are_survived() {
    let mut random = Random(13);
    for _ in 0..5_000 {
        let bytes: Vec<u8> = (0..random.below(200)).map(|_| random.below(256) as u8).collect();
        held(&String::from_utf8_lossy(&bytes));
        let ascii: Vec<u8> = bytes.iter().map(|byte| byte % 96 + 31).collect();
        held(&format!("procedure main\n {}", String::from_utf8_lossy(&ascii)));
        held(&format!("1(0,{}", String::from_utf8_lossy(&ascii)));
    }
}

/// Assembles any text; gives whether it is accepted. A readable text without a fault is not refused by the library.
fn held(text: &str) -> bool {
    match placed(text) {
        Ok(_) => {
            let table = assemble(text).unwrap();
            assert_eq!(assemble(&listing::list(&table).unwrap()), Ok(table), "{text}");
            true
        }
        Err(faults) => {
            let told = faults.told();
            assert!(!told.is_empty() && told.len() <= TOLD && told.is_sorted_by_key(|fault| fault.at), "{text}");
            assert!(told.iter().all(|a| told.iter().filter(|b| a == *b).count() == 1), "{text:?}: {told:#?}");
            let refused = told.iter().any(|fault| fault.sentence.contains("(refused "));
            assert!(!refused || raw::is_raw(text), "{text}: {told:?}");
            false
        }
    }
}

#[test]
fn long_texts_end_quickly() {
    let most = 4 << 20;
    let nested = |count: usize| (1..count).map(|indent| format!("{}if 1\n", " ".repeat(indent))).collect::<String>();
    let numbered = |start: &str, end: &str| -> String {
        (0..)
            .map(|number| format!("{start}{number}{end}"))
            .scan(0, |length, line| {
                *length += line.len();
                (*length < most).then_some(line)
            })
            .collect()
    };
    for text in [
        "a\n".repeat(most / 2),
        "x ".repeat(most / 2),
        "1 ".repeat(most / 2),
        "\t".repeat(most - 1) + "x",
        "% ".repeat(most / 2),
        format!("procedure main\n  set x {}", "1".repeat(most)),
        format!("procedure main\n  set x {}1", "(".repeat(most)),
        format!("procedure main\n  set x 1{}", " and 1".repeat(most / 6)),
        format!("procedure main\n  set {} 1\n", "y".repeat(most)),
        format!("procedure main\n{}", numbered("  guard abcdefg", "\n")),
        format!("procedure main\n{}", numbered("  set abcdefg", " 1\n")),
        format!("procedure main\n{}", numbered("  spawn x abcdefg", " 1\n")),
        numbered("procedure abcdefg", "\n") + "procedure b\n  spawn x abcdefh 1",
        numbered("procedure a", "\n  skipp\n"),
        nested(2_800),
        numbered("1(0,", "x)\n"),
        format!("procedure main\n{}{}", nested(1_900), "skip\n".repeat(most / 10)),
        format!("procedure main\n{}{}", nested(1_900), "if 1\n".repeat(most / 10)),
        format!("procedure main\n{}{}", nested(1_900), " iff 1\n   if 1\n".repeat(most / 30)),
    ] {
        let from = Instant::now();
        let _ = assemble(&text);
        assert!(from.elapsed() < Duration::from_secs(20), "{:?}: {}", from.elapsed(), &text[..40]);
    }
}

// The manual.

/// The parts of the manual that are recipes, without their indentation.
#[test]
fn the_recipes_of_the_manual_assemble() {
    let manual = fs::read_to_string(root("docs/MANUAL.md")).unwrap();
    let mut blocks = vec![String::new()];
    for line in manual.lines() {
        match line.strip_prefix("    ") {
            Some(code) => *blocks.last_mut().unwrap() += &format!("{code}\n"),
            None if line.is_empty() => *blocks.last_mut().unwrap() += "\n",
            None => blocks.push(String::new()),
        }
    }
    let recipes: Vec<&String> = blocks.iter().filter(|block| block.contains("procedure main\n")).collect();
    assert!(!recipes.is_empty());
    for text in recipes {
        assert_eq!(warned(text), [""; 0], "{text}");
    }
}
