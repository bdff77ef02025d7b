//! The command line of a subcommand.

use std::borrow::Cow;
use std::ffi::{OsStr, OsString};
use std::path::{Path, PathBuf};

use crate::failure::Failure;
use crate::words::quoted;

/// The files, lists and options that a subcommand knows.
#[derive(Clone, Copy, Debug)]
pub struct Options {
    pub command: &'static str,
    /// What the help text calls the files, in their order; a last one with "..." behind it stands for any number.
    pub files: &'static [&'static str],
    /// What it calls the lists of procedures, which stand behind the files.
    pub lists: &'static [&'static str],
    /// Options with a value behind them.
    pub valued: &'static [&'static str],
    pub flags: &'static [&'static str],
}

/// Options that a subcommand once had, and what to write in their place.
const FORMER: [(&str, &str, &str); 5] = [
    ("run", "--budget", "a run goes on to its end, and \"--steps N\" stops it earlier"),
    ("run", "--log", "the log has room for each slice's records, and \"--slice N\" gives the steps of a slice"),
    ("run", "--strict", "leave it out: the exit status always tells the ending"),
    ("timeline", "--budget", "write --steps"),
    ("timeline", "--log", "leave it out, or write --to for a part of the run"),
];

/// What was given.
#[derive(Debug, Default)]
pub struct Given {
    files: Vec<OsString>,
    lists: Vec<OsString>,
    values: Vec<(&'static str, OsString)>,
    flags: Vec<&'static str>,
}

impl Options {
    pub fn read(&self, arguments: &[OsString]) -> Result<Given, Failure> {
        let mut given = Given::default();
        let mut arguments = arguments.iter();
        let mut options = true;
        while let Some(argument) = arguments.next() {
            match argument.to_str() {
                Some("--") if options => options = false,
                Some(text) if options && text.len() > 1 && text.starts_with('-') => {
                    self.option(&mut given, text, &mut arguments)?;
                }
                _ if given.files.len() < self.files.len() || self.takes_more() => given.files.push(argument.clone()),
                _ if given.lists.len() < self.lists.len() => given.lists.push(argument.clone()),
                _ => return Err(self.too_many(argument)),
            }
        }
        Ok(given)
    }

    fn takes_more(&self) -> bool {
        self.files.last().is_some_and(|name| name.ends_with("..."))
    }

    /// The failure of an argument behind all that is taken.
    fn too_many(&self, argument: &OsStr) -> Failure {
        let noun = if self.lists.is_empty() { "file" } else { "argument" };
        let (name, taken) = (quoted(&argument.to_string_lossy()), [self.files, self.lists].concat().join(" and "));
        self.wrong(format!("{name} is one {noun} too many after {taken}"))
    }

    fn option<'i>(
        &self,
        given: &mut Given,
        text: &str,
        rest: &mut impl Iterator<Item = &'i OsString>,
    ) -> Result<(), Failure> {
        let (name, inline) = match text.split_once('=') {
            Some((name, value)) => (name, Some(OsString::from(value))),
            None => (text, None),
        };
        let known = |names: &'static [&'static str]| names.iter().copied().find(|known| *known == name);
        if let (Some(flag), None) = (known(self.flags), &inline) {
            given.flags.push(flag);
            return Ok(());
        }
        let Some(option) = known(self.valued) else {
            return Err(self.unknown(name, text));
        };
        if given.value(option).is_some() {
            return Err(self.wrong(format!("{option} is given twice")));
        }
        let value = inline.or_else(|| rest.next().cloned());
        let value = value.ok_or_else(|| self.wrong(format!("{option} takes a value, and none follows")))?;
        given.values.push((option, value));
        Ok(())
    }

    /// The failure of an option that there is not, or not any more.
    fn unknown(&self, name: &str, text: &str) -> Failure {
        let former = FORMER.iter().find(|(command, former, _)| *command == self.command && *former == name);
        match former {
            Some((_, former, instead)) => self.wrong(format!("there is no {former} any more: {instead}")),
            None => self.wrong(format!("there is no option {}", quoted(text))),
        }
    }

    /// A fault of the command line.
    pub fn wrong(&self, sentence: String) -> Failure {
        let command = self.command;
        Failure::usage(format_args!("{command}: {sentence} (\"recipe {command} --help\" tells more)"))
    }

    /// A number given with an option, or the one that holds without it.
    pub fn number(&self, given: &Given, option: &str, most: u32, default: u32) -> Result<u32, Failure> {
        let number = self.count(given, option, 0, most.into())?;
        Ok(number.and_then(|number| u32::try_from(number).ok()).unwrap_or(default))
    }

    /// A number given with an option, if it is given.
    pub fn count(&self, given: &Given, option: &str, least: u64, most: u64) -> Result<Option<u64>, Failure> {
        let Some(value) = given.value(option) else {
            return Ok(None);
        };
        let digits = value.to_str().filter(|text| text.bytes().all(|byte| byte.is_ascii_digit()));
        let number = digits.and_then(|digits| digits.parse().ok()).filter(|number| (least..=most).contains(number));
        number.map(Some).ok_or_else(|| {
            let found = quoted(&value.to_string_lossy());
            self.wrong(format!("{option} takes a number from {least} to {most}, not {found}"))
        })
    }

    /// The name of a state's file given with an option.
    pub fn state<'g>(&self, given: &'g Given, option: &str) -> Result<Option<&'g Path>, Failure> {
        match given.value(option) {
            Some(value) if names_none(value) => Err(self.wrong(format!("{option} takes the name of a file"))),
            value => Ok(value.map(Path::new)),
        }
    }

    /// The files to read, in their order: none for standard input, which stands alone where no file is given.
    pub fn inputs(&self, given: &Given) -> Result<Vec<Option<PathBuf>>, Failure> {
        if given.files.is_empty() {
            return Ok(vec![None]);
        }
        let inputs: Vec<_> = given.files.iter().map(named).collect();
        if inputs.iter().filter(|input| input.is_none()).count() > 1 {
            return Err(self.wrong("standard input is given twice, and can be read once".to_string()));
        }
        Ok(inputs)
    }

    /// The name of a file that cannot be left out or be standard input, the one at `index` of those taken.
    pub fn due<'g>(&self, given: &'g Given, index: usize) -> Result<&'g Path, Failure> {
        let file = given.files.get(index).filter(|file| !names_none(file)).map(Path::new);
        file.ok_or_else(|| {
            let missing = self.files.get(index.min(given.files.len())).copied().unwrap_or("FILE");
            self.wrong(format!("{missing} is missing: the name of a file is due"))
        })
    }

    /// A list of procedures, the one at `index` of the lists.
    pub fn list<'g>(&self, given: &'g Given, index: usize) -> Result<Cow<'g, str>, Failure> {
        if let Some(list) = given.lists.get(index) {
            return Ok(list.to_string_lossy());
        }
        // A file may be missing before it.
        let file = self.files.get(given.files.len()).map(|file| (file, "the name of a file"));
        let list = self.lists.get(given.lists.len()).map(|list| (list, "a list of procedures"));
        let (missing, due) = file.or(list).unwrap_or((&"LIST", "a list of procedures"));
        Err(self.wrong(format!("{missing} is missing: {due} is due")))
    }
}

/// Whether a name is no file's of its own: standard input's, or an empty one.
fn names_none(file: &OsStr) -> bool {
    file == "-" || file.is_empty()
}

/// The file that a name stands for, none for a standard stream.
fn named(file: impl AsRef<OsStr>) -> Option<PathBuf> {
    Some(file.as_ref()).filter(|file| *file != "-").map(PathBuf::from)
}

impl Given {
    pub fn value(&self, option: &str) -> Option<&OsStr> {
        self.values.iter().find(|(name, _)| *name == option).map(|(_, value)| value.as_os_str())
    }

    pub fn flag(&self, flag: &str) -> bool {
        self.flags.contains(&flag)
    }

    /// The file to read, none for standard input.
    pub fn input(&self) -> Option<PathBuf> {
        self.files.first().and_then(named)
    }

    /// The file to write, none for standard output.
    pub fn output(&self) -> Option<PathBuf> {
        self.value("-o").and_then(named)
    }

    /// The file to write that an option names, if it is given: none in it for standard output.
    pub fn output_of(&self, option: &str) -> Option<Option<PathBuf>> {
        self.value(option).map(named)
    }
}

#[cfg(test)]
mod tests {
    use super::*;

    const OPTIONS: Options =
        Options { command: "run", files: &["FILE"], lists: &[], valued: &["--budget", "-o"], flags: &["--quiet"] };
    const TWO: Options = Options { command: "why", files: &["TABLE", "STATE"], lists: &[], valued: &[], flags: &[] };
    const LISTS: Options =
        Options { command: "makers", files: &["TABLE"], lists: &["PUMPS", "DRUMS"], valued: &[], flags: &[] };
    const MANY: Options = Options { command: "check", files: &["FILE..."], lists: &[], valued: &[], flags: &[] };

    fn given(options: Options, arguments: &[&str]) -> Result<Given, Failure> {
        options.read(&arguments.iter().map(OsString::from).collect::<Vec<_>>())
    }

    fn read(arguments: &[&str]) -> Result<Given, Failure> {
        given(OPTIONS, arguments)
    }

    #[test]
    fn options_are_read_in_any_order() {
        let given = read(&["--budget", "5", "f", "--quiet", "-o=x"]).unwrap();
        assert_eq!(given.input(), Some(PathBuf::from("f")));
        assert_eq!(given.output(), Some(PathBuf::from("x")));
        assert!(given.flag("--quiet"));
        assert_eq!(OPTIONS.number(&given, "--budget", 9, 1), Ok(5));
        assert_eq!(OPTIONS.number(&given, "--log", 9, 1), Ok(1));
        assert_eq!(read(&["-"]).unwrap().input(), None);
        assert_eq!(read(&["--", "--quiet"]).unwrap().input(), Some(PathBuf::from("--quiet")));
    }

    #[test]
    fn files_are_read_in_their_order() {
        let both = given(TWO, &["t", "s"]).unwrap();
        assert_eq!((both.input(), TWO.due(&both, 1)), (Some(PathBuf::from("t")), Ok(Path::new("s"))));
        for (arguments, told) in [
            (&[][..], "recipe: why: TABLE is missing: "),
            (&["t"], "recipe: why: STATE is missing: "),
            (&["t", "-"], "recipe: why: STATE is missing: "),
            (&["t", ""], "recipe: why: STATE is missing: "),
            (&["t", "s", "x"], "recipe: why: \"x\" is one file too many after TABLE and STATE"),
        ] {
            let wrong = given(TWO, arguments).and_then(|given| TWO.due(&given, 1).map(PathBuf::from)).unwrap_err();
            assert_eq!((wrong.status, wrong.message.starts_with(told)), (2, true), "{}", wrong.message);
        }
    }

    #[test]
    fn lists_are_read_as_they_are() {
        for list in ["1,2", "", "-"] {
            let all = given(LISTS, &["t", list, "3"]).unwrap();
            let lists = [0, 1].map(|index| LISTS.list(&all, index).unwrap().into_owned());
            assert_eq!((all.input(), lists), (Some(PathBuf::from("t")), [list.to_string(), "3".to_string()]));
        }
        for (arguments, told) in [
            (&[][..], "recipe: makers: TABLE is missing: the name of a file is due"),
            (&["t"], "recipe: makers: PUMPS is missing: a list of procedures is due"),
            (&["t", "1"], "recipe: makers: DRUMS is missing: a list of procedures is due"),
            (&["t", "1", "3", "x"], "recipe: makers: \"x\" is one argument too many after TABLE and PUMPS and DRUMS"),
        ] {
            let wrong = given(LISTS, arguments).and_then(|given| LISTS.list(&given, 1).map(String::from)).unwrap_err();
            assert_eq!((wrong.status, wrong.message.starts_with(told)), (2, true), "{}", wrong.message);
        }
    }

    #[test]
    fn any_number_of_files_is_read_where_they_are_taken() {
        let inputs = |arguments: &[&str]| MANY.inputs(&given(MANY, arguments).unwrap());
        let file = |name| Some(PathBuf::from(name));
        assert_eq!(inputs(&[]), Ok(vec![None]));
        assert_eq!(inputs(&["b", "-", "a", "b"]), Ok(vec![file("b"), None, file("a"), file("b")]));
        assert_eq!(inputs(&["f"; 1_000]), Ok(vec![file("f"); 1_000]));
        assert_eq!(inputs(&["--", "--help", "-x"]), Ok(vec![file("--help"), file("-x")]));
        let twice = inputs(&["-", "f", "-"]).unwrap_err();
        assert_eq!((twice.status, twice.message.contains("given twice")), (2, true), "{}", twice.message);
    }

    #[test]
    fn former_options_say_what_to_write() {
        for (line, part) in [
            (&["--strict"][..], "no --strict any more: leave it out"),
            (&["--log", "5"], "no --log any more: the log has room"),
            (&["--log=5"], "no --log any more: the log has room"),
        ] {
            let wrong = read(line).unwrap_err();
            assert_eq!((wrong.status, wrong.message.contains(part)), (2, true), "{}", wrong.message);
        }
    }

    #[test]
    fn counts_have_bounds() {
        let count = |value| OPTIONS.count(&read(&["--budget", value]).unwrap(), "--budget", 1, u64::MAX);
        assert_eq!(count("18446744073709551615"), Ok(Some(u64::MAX)));
        assert_eq!(OPTIONS.count(&read(&[]).unwrap(), "--budget", 1, 9), Ok(None));
        for wrong in ["0", "18446744073709551616", "1e3", ""] {
            assert!(count(wrong).is_err(), "{wrong}");
        }
    }

    #[test]
    fn wrong_lines_are_told() {
        for wrong in [&["--bugdet", "5"][..], &["a", "b"], &["--budget"], &["--quiet=1"], &["-o", "a", "-o", "b"]] {
            assert_eq!(read(wrong).unwrap_err().status, 2, "{wrong:?}");
        }
        for number in ["-1", "+1", "1x", "", "10"] {
            let given = read(&["--budget", number]).unwrap();
            assert!(OPTIONS.number(&given, "--budget", 9, 1).is_err(), "{number}");
        }
    }
}
