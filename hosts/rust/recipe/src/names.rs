//! What the names of a recipe mean: procedures, shared variables, parameters and valves.
//!
//! A name means one thing in the whole text, so that a slip is told and does not become a new variable; only
//! parameters may bear the same name in several procedures. For the same reason a variable that is read must be set,
//! spawned into or declared somewhere in the text.

use std::borrow::Cow;
use std::collections::{BTreeMap, BTreeSet};

use crate::nearest::hint;
use crate::source::{Fault, Faults, Position};
use crate::table::{FIRST_SHARED, PARAMETER};
use crate::words::quoted;

/// The parameter's name where the procedure's header gives none.
pub const DEFAULT_PARAMETER: &str = "parameter";
/// Stands for the parameter's name where a line at fault leaves it open.
pub const ANY_PARAMETER: &str = "";
/// The shared variables, valves included.
const SHARED: usize = 64;
/// The last procedure that a spawn can name.
const LAST_SPAWNED: usize = 255;
const DECLARE_WRITTEN: &str = "; one that the host writes is declared, \"variable NAME NUMBER\"";
const DECLARE_READ: &str = "; one that the host reads is declared, \"variable NAME NUMBER\"";
const VALVES: [&str; 8] = ["valve0", "valve1", "valve2", "valve3", "valve4", "valve5", "valve6", "valve7"];
/// Words that name nothing.
const RESERVED: [&str; 18] = [
    "procedure",
    "variable",
    "skip",
    "set",
    "if",
    "while",
    "spawn",
    "suspend",
    "await",
    "guard",
    "and",
    "or",
    "not",
    "else",
    "elif",
    "true",
    "false",
    DEFAULT_PARAMETER,
];

#[derive(Clone, Copy, Debug, PartialEq, Eq, PartialOrd, Ord)]
enum Meaning {
    Procedure(usize),
    Variable(u8),
    Parameter,
}

impl Meaning {
    fn words(self) -> &'static str {
        match self {
            Meaning::Procedure(_) => "a procedure",
            Meaning::Variable(_) => "a variable",
            Meaning::Parameter => "the parameter of a procedure",
        }
    }
}

/// What is wrong with the use of a name.
#[derive(Clone, Copy, Debug, PartialEq, Eq, PartialOrd, Ord)]
enum Misuse {
    /// Read and nowhere set.
    NoVariable,
    NoProcedure,
    /// A procedure where a variable is due.
    Procedure,
    /// Something else where a procedure is due.
    NotSpawnable(Meaning),
    OtherParameter,
    /// A parameter's name that already has another meaning.
    Taken(Meaning),
    /// "parameter" where the parameter has a name.
    OwnParameter,
    NoValve,
    TooMany,
}

impl Misuse {
    /// Whether another line may give the name a meaning with which this is none.
    fn depends(self) -> bool {
        !matches!(self, Misuse::OwnParameter | Misuse::NoValve | Misuse::TooMany)
    }
}

/// Where a name stands first, and what the parameter is called there.
type First<'a> = (Position, &'a str);

#[derive(Debug)]
pub struct Names<'a> {
    meanings: BTreeMap<&'a str, Meaning>,
    /// Which variable numbers have a name, and which.
    taken: [Option<&'a str>; SHARED],
    /// The procedures that a spawn can name, in their order.
    spawnable: Vec<&'a str>,
    procedures: usize,
    /// The parameter's name in the procedure at hand.
    parameter: &'a str,
    declared: BTreeSet<&'a str>,
    set: BTreeMap<&'a str, First<'a>>,
    spawned: BTreeSet<&'a str>,
    /// Read or awaited.
    read: BTreeSet<&'a str>,
    /// Names in lines at fault, which may give them any meaning.
    excused: BTreeSet<Cow<'a, str>>,
    /// Told when all lines are read: a later one may excuse the name.
    misused: BTreeMap<(&'a str, Misuse), First<'a>>,
}

impl<'a> Names<'a> {
    pub fn new() -> Names<'a> {
        Names {
            meanings: BTreeMap::new(),
            taken: [None; SHARED],
            spawnable: Vec::new(),
            procedures: 0,
            parameter: DEFAULT_PARAMETER,
            declared: BTreeSet::new(),
            set: BTreeMap::new(),
            spawned: BTreeSet::new(),
            read: BTreeSet::new(),
            excused: BTreeSet::new(),
            misused: BTreeMap::new(),
        }
    }

    /// Takes up the header of the next procedure.
    pub fn add_procedure(&mut self, name: &'a str, at: Position) -> Result<(), Fault> {
        let number = self.procedures;
        self.procedures += 1;
        self.claim(name, Meaning::Procedure(number), at)?;
        if name == "main" && number > 0 {
            return Err(Fault::new(at, "the first procedure is the main one: \"main\" must stand before the others"));
        }
        if number <= LAST_SPAWNED {
            self.spawnable.push(name);
        }
        Ok(())
    }

    /// Takes up a parameter's name. Another meaning of it is told at the end.
    pub fn add_parameter(&mut self, name: &'a str, at: Position) -> Result<(), Fault> {
        match self.meanings.get(name) {
            _ if name == DEFAULT_PARAMETER => {}
            None => self.claim(name, Meaning::Parameter, at)?,
            Some(Meaning::Parameter) => {}
            Some(other) => self.misuse(name, Misuse::Taken(*other), at),
        }
        Ok(())
    }

    /// Takes up a declared variable.
    pub fn add_variable(&mut self, name: &'a str, number: u8, at: Position) -> Result<(), Fault> {
        self.declared.insert(name);
        self.give(name, number, at)
    }

    /// Takes up that a name is set somewhere in the text.
    pub fn add_set(&mut self, name: &'a str, at: Position) {
        if unreserved(name, at).is_ok() {
            self.set.entry(name).or_insert((at, self.parameter));
        }
    }

    /// Takes up that a spawn's number goes into a name somewhere in the text.
    pub fn add_spawned(&mut self, name: &'a str, at: Position) {
        if unreserved(name, at).is_ok() {
            self.spawned.insert(name);
        }
    }

    /// Takes up the words of a line at fault, of which it is not known what they are.
    pub fn excuse(&mut self, words: impl Iterator<Item = Cow<'a, str>>) {
        self.excused.extend(words);
    }

    /// Gives a variable its number.
    fn give(&mut self, name: &'a str, number: u8, at: Position) -> Result<(), Fault> {
        self.claim(name, Meaning::Variable(number), at)?;
        let Some(slot) = self.taken.get_mut(usize::from(number)) else {
            return Err(Fault::new(at, format!("there is no variable {number}: they are 0 to 63")));
        };
        match slot.replace(name) {
            Some(other) => Err(Fault::new(at, format!("variable {number} already has the name {}", quoted(other)))),
            None => Ok(()),
        }
    }

    fn claim(&mut self, name: &'a str, meaning: Meaning, at: Position) -> Result<(), Fault> {
        unreserved(name, at)?;
        match valve(name) {
            None => {}
            Some(Ok(_)) => {
                return Err(Fault::new(at, format!("{} is a valve and cannot get another meaning", quoted(name))));
            }
            Some(Err(NoValve)) => return Err(Fault::new(at, no_valve(name))),
        }
        match self.meanings.insert(name, meaning) {
            Some(before) => Err(Fault::new(at, taken(name, before))),
            None => Ok(()),
        }
    }

    /// Enters a procedure's body, where its parameter has this name.
    pub fn enter(&mut self, parameter: &'a str) {
        self.parameter = parameter;
    }

    /// Whether a name is a procedure's.
    pub fn is_procedure(&self, name: &str) -> bool {
        matches!(self.meanings.get(name), Some(Meaning::Procedure(_)))
    }

    /// The number of a procedure that a spawn names. One that is not there is told at the end.
    pub fn procedure(&mut self, name: &'a str, at: Position) -> i32 {
        let misuse = match self.meanings.get(name) {
            Some(Meaning::Procedure(number)) if *number <= LAST_SPAWNED => return *number as i32,
            Some(other) => Misuse::NotSpawnable(*other),
            None => Misuse::NoProcedure,
        };
        self.misuse(name, misuse, at);
        0
    }

    /// The number of a variable that is read or awaited. One that is set nowhere is told at the end.
    pub fn read(&mut self, name: &'a str, at: Position) -> Result<u8, Fault> {
        self.read.insert(name);
        let known = self.meanings.contains_key(name) || self.set.contains_key(name) || self.spawned.contains(name);
        if known || self.built_in(name, at)?.is_some() {
            return self.variable(name, at);
        }
        self.misuse(name, Misuse::NoVariable, at);
        Ok(FIRST_SHARED)
    }

    /// The number of a variable; one not met before gets the next that is free. A name of another meaning is told at
    /// the end.
    pub fn variable(&mut self, name: &'a str, at: Position) -> Result<u8, Fault> {
        if let Some(number) = self.built_in(name, at)? {
            return Ok(number);
        }
        let misuse = match self.meanings.get(name) {
            Some(Meaning::Variable(number)) => return Ok(*number),
            Some(Meaning::Procedure(_)) => Misuse::Procedure,
            Some(Meaning::Parameter) => Misuse::OtherParameter,
            None => return self.number(name, at),
        };
        self.misuse(name, misuse, at);
        Ok(FIRST_SHARED)
    }

    /// The number of a parameter or valve, none for other names. Words of the notation are faults.
    fn built_in(&mut self, name: &'a str, at: Position) -> Result<Option<u8>, Fault> {
        let is_parameter = || name == DEFAULT_PARAMETER || self.meanings.get(name) == Some(&Meaning::Parameter);
        if name == self.parameter || (self.parameter == ANY_PARAMETER && is_parameter()) {
            return Ok(Some(PARAMETER));
        }
        if name == DEFAULT_PARAMETER {
            self.misuse(name, Misuse::OwnParameter, at);
            return Ok(Some(PARAMETER));
        }
        unreserved(name, at)?;
        Ok(valve(name).map(|valve| {
            valve.unwrap_or_else(|NoValve| {
                self.misuse(name, Misuse::NoValve, at);
                FIRST_SHARED
            })
        }))
    }

    fn number(&mut self, name: &'a str, at: Position) -> Result<u8, Fault> {
        let free = (FIRST_SHARED..).zip(self.taken.iter().skip(usize::from(FIRST_SHARED)));
        let Some(number) = free.filter(|(_, slot)| slot.is_none()).map(|(number, _)| number).next() else {
            self.misuse(name, Misuse::TooMany, at);
            return Ok(FIRST_SHARED);
        };
        self.give(name, number, at)?;
        Ok(number)
    }

    fn misuse(&mut self, name: &'a str, misuse: Misuse, at: Position) {
        self.misused.entry((name, misuse)).or_insert((at, self.parameter));
    }

    /// Tells the names that were not found or mean something else, each at its first place.
    pub fn tell_misused(&self, faults: &mut Faults) {
        let told = |(name, misuse): &(&str, Misuse)| !(misuse.depends() && self.excused.contains(*name));
        self.misused.iter().filter(|(key, _)| told(key)).for_each(|((name, misuse), (at, parameter))| {
            faults.add(*at, || self.sentence(name, *misuse, parameter));
        });
    }

    /// What is said of a name where the parameter is called so.
    fn sentence(&self, name: &str, misuse: Misuse, parameter: &str) -> String {
        let shown = quoted(name);
        match misuse {
            Misuse::NoVariable => {
                let hint = hint(name, self.variables().chain([parameter]).chain(VALVES), DECLARE_WRITTEN);
                format!("there is no variable {shown}: it is never set, spawned into or declared{hint}")
            }
            Misuse::NoProcedure => {
                format!("there is no procedure {shown}{}", hint(name, self.spawnable.iter().copied(), ""))
            }
            Misuse::Procedure => format!("{shown} is the name of a procedure, and a variable is due here"),
            Misuse::NotSpawnable(Meaning::Procedure(number)) => {
                format!("{shown} is procedure {number}: only 0 to 255 can be spawned")
            }
            Misuse::NotSpawnable(other) => {
                format!("{shown} is the name of {}, and a procedure is due here", other.words())
            }
            Misuse::OtherParameter => format!("{shown} is the parameter of another procedure"),
            Misuse::Taken(other) => taken(name, other),
            Misuse::OwnParameter => format!("the parameter of this procedure has the name {}", quoted(parameter)),
            Misuse::NoValve => no_valve(name),
            Misuse::TooMany => {
                format!("too many variables: no number is left for {shown} (there are 56, 8 to 63)")
            }
        }
    }

    /// The variables of the text; more than there are numbers for are not listed.
    fn variables(&self) -> impl Iterator<Item = &'a str> + '_ {
        let declared = self.declared.iter().take(SHARED);
        declared.chain(self.set.keys().take(SHARED)).chain(self.spawned.iter().take(SHARED)).copied()
    }

    /// The warnings of a text without a fault: the variables that are set and never used.
    pub fn unused(&self) -> Faults {
        let mut warnings = Faults::new();
        let used =
            |name: &&str| self.read.contains(name) || self.spawned.contains(name) || self.declared.contains(name);
        self.set.iter().filter(|(name, _)| self.is_shared(name) && !used(name)).for_each(|(name, (at, parameter))| {
            warnings.add(*at, || {
                let read = self.read.iter().copied().filter(|name| self.is_shared(name));
                let hint = hint(name, read.chain([*parameter]).chain(VALVES), DECLARE_READ);
                format!("warning: {} is set and never read or awaited{hint}", quoted(name))
            });
        });
        warnings
    }

    /// What the shared variables are called, by their numbers.
    pub fn called(&self) -> BTreeMap<u8, String> {
        (0..).zip(self.taken).filter_map(|(number, name)| Some((number, name?.to_string()))).collect()
    }

    /// Whether a name is a variable's that has been given a number.
    fn is_shared(&self, name: &str) -> bool {
        matches!(self.meanings.get(name), Some(Meaning::Variable(_)))
    }
}

impl Default for Names<'_> {
    fn default() -> Self {
        Names::new()
    }
}

/// Holds a name to be no word of the notation.
fn unreserved(name: &str, at: Position) -> Result<(), Fault> {
    let instead = match name {
        "true" => ": write 1, as any value but 0 counts as true",
        "false" => ": write 0",
        _ if RESERVED.contains(&name) => "",
        _ => return Ok(()),
    };
    Err(Fault::new(at, format!("{} is a word of the notation and cannot be a name{instead}", quoted(name))))
}

/// A name such as `valve9`.
struct NoValve;

/// The number of a valve's name, none for other names.
fn valve(name: &str) -> Option<Result<u8, NoValve>> {
    let digits = name.strip_prefix("valve").filter(|rest| rest.starts_with(|c: char| c.is_ascii_digit()))?;
    Some(match digits.as_bytes() {
        [digit @ b'0'..=b'7'] => Ok(digit - b'0'),
        _ => Err(NoValve),
    })
}

fn no_valve(name: &str) -> String {
    format!("there is no {}: the valves are valve0 to valve7", quoted(name))
}

fn taken(name: &str, before: Meaning) -> String {
    format!("{} is already the name of {}", quoted(name), before.words())
}

#[cfg(test)]
mod tests {
    use super::*;

    const AT: Position = Position::START;

    #[test]
    fn variables_are_numbered_around_the_declared() {
        let mut names = Names::new();
        names.add_variable("pressure", 9, AT).unwrap();
        names.add_variable("juice", 0, AT).unwrap();
        let numbers: Vec<_> = ["a", "pressure", "b", "a", "valve7", "juice", "parameter"]
            .iter()
            .map(|name| names.variable(name, AT).unwrap())
            .collect();
        assert_eq!(numbers, [8, 9, 10, 8, 7, 0, 64]);
        let called = [(0, "juice"), (8, "a"), (9, "pressure"), (10, "b")];
        assert_eq!(names.called(), called.map(|(number, name)| (number, name.to_string())).into());
    }

    #[test]
    fn a_name_means_one_thing() {
        let mut names = Names::new();
        names.add_procedure("main", AT).unwrap();
        names.add_procedure("press", AT).unwrap();
        names.add_parameter("p", AT).unwrap();
        names.add_parameter("p", AT).unwrap();
        assert!(names.add_procedure("press", AT).is_err());
        assert!(names.add_variable("while", 9, AT).is_err());
        assert!(names.add_variable("valve3", 9, AT).is_err());
        assert!(names.add_variable("valve8", 9, AT).is_err());
        assert!(names.misused.is_empty());
        names.enter("p");
        assert_eq!(names.variable("p", AT), Ok(64));
        assert!(names.misused.is_empty());
        for (name, misuse) in [
            ("press", Misuse::Procedure),
            ("valve8", Misuse::NoValve),
            ("parameter", Misuse::OwnParameter),
            ("q", Misuse::NoVariable),
        ] {
            names.read(name, AT).unwrap();
            assert!(names.misused.contains_key(&(name, misuse)), "{name}");
        }
        names.enter("q");
        names.variable("p", AT).unwrap();
        assert!(names.misused.contains_key(&("p", Misuse::OtherParameter)));
        names.add_parameter("main", AT).unwrap();
        assert!(names.misused.contains_key(&("main", Misuse::Taken(Meaning::Procedure(0)))));
    }

    /// What a line at fault may mean by a name is not told of it; what is wrong in any case is.
    #[test]
    fn words_of_lines_at_fault_excuse_names() {
        let mut names = Names::new();
        let names_told = |names: &Names| {
            let mut faults = Faults::new();
            names.tell_misused(&mut faults);
            faults.told().len()
        };
        for name in ["a", "valve8", "b"] {
            names.read(name, AT).unwrap();
        }
        names.procedure("a", AT);
        assert_eq!(names_told(&names), 4);
        names.excuse(["a", "valve8"].into_iter().map(Cow::Borrowed));
        assert_eq!(names_told(&names), 2);
    }
}
