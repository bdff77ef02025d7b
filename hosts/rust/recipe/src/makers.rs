//! Two makers in one recipe: whether it is one of those where neither one's code can change what the other's does to
//! its valves, and if not, what breaks that and where.

use std::collections::BTreeSet;
use std::fmt;
use std::ops::Range;

use crate::table::{kind, Record, FIRST_SHARED, PARAMETER};

mod called;
mod lists;
mod main_block;
mod side;

pub use called::Called;
pub use lists::procedures;

use side::Side;

/// The numbers of a maker's procedures.
pub type Procedures = BTreeSet<usize>;

/// One of the makers.
#[derive(Clone, Copy, Debug, PartialEq, Eq)]
pub enum Maker {
    Pump,
    Drum,
}

/// What is asked, sentence by sentence.
#[derive(Clone, Copy, Debug, PartialEq, Eq)]
pub enum Sentence {
    /// No procedure is both makers', and the main one is neither's.
    Procedures,
    /// The main block only spawns one procedure of each, with constant arguments, into variables nobody else names.
    Main,
    /// The makers name disjoint variables and valves.
    Names,
    /// A maker spawns only its own procedures.
    Spawns(Maker),
    /// A maker awaits only variables 8 to 63 that are set by spawn alone, and spawns only into such variables.
    Awaits(Maker),
    /// No expression reads the variables that a maker awaits or spawns into.
    Reads(Maker),
}

/// A record that breaks a sentence.
#[derive(Clone, Debug, PartialEq, Eq)]
pub struct Breach {
    pub record: usize,
    pub sentence: Sentence,
    /// What the record does that it must not.
    told: String,
}

/// A procedure's place in the table: its header, and the records that this encloses.
struct Procedure {
    header: usize,
    body: Range<usize>,
}

/// An accepted table, and whose procedures are whose.
pub struct TwoMakers<'r> {
    records: &'r [Record],
    /// The procedures, in their order.
    all: Vec<Procedure>,
    called: &'r Called<'r>,
    pump: Side<'r>,
    drum: Side<'r>,
}

impl<'r> TwoMakers<'r> {
    /// The procedures of either maker are given by their numbers.
    pub fn new(records: &'r [Record], called: &'r Called, pump: &'r Procedures, drum: &'r Procedures) -> TwoMakers<'r> {
        let all = all(records);
        let side = |maker, procedures| Side::new(maker, procedures, records, &all);
        let (pump, drum) = (side(Maker::Pump, pump), side(Maker::Drum, drum));
        TwoMakers { records, all, called, pump, drum }
    }

    /// What breaks a sentence, in the order of the records.
    pub fn breaches(&self) -> Vec<Breach> {
        let mut found = self.procedures();
        found.extend(self.main_block());
        found.extend(self.names());
        for side in [&self.pump, &self.drum] {
            found.extend(self.spawns(side));
            found.extend(self.awaits(side));
            found.extend(self.reads(side));
        }
        found.sort_by_key(|breach| breach.record);
        found
    }

    /// The valves that each maker names.
    pub fn valves(&self) -> String {
        let of = |side: &Side| {
            let (maker, valves) = (side.maker, side.valves());
            let numbers: Vec<String> = valves.iter().map(u8::to_string).collect();
            match valves.len() {
                0 => format!("no valve of {maker}'s"),
                1 => format!("{maker}'s valve {}", numbers.join("")),
                _ => format!("{maker}'s valves {}", numbers.join(", ")),
            }
        };
        format!("{}; {}", of(&self.pump), of(&self.drum))
    }

    fn procedures(&self) -> Vec<Breach> {
        let given = self.pump.procedures.union(self.drum.procedures);
        let wrong = given.filter_map(|number| {
            let Procedure { header, .. } = *self.all.get(*number)?;
            let named = self.called.procedure(*number);
            let told = match self.owners(*number)[..] {
                [_, _] => format!("{named} is given to both makers"),
                [maker] if *number == 0 => format!("{named}, the main procedure, is given to {maker}"),
                _ => return None,
            };
            Some(Breach { record: header, sentence: Sentence::Procedures, told })
        });
        wrong.collect()
    }

    /// The variables and valves that both makers name, each where the pump maker first does.
    fn names(&self) -> Vec<Breach> {
        let wrong = (0..PARAMETER).filter_map(|name| {
            let (record, other) = (self.pump.names(name)?, self.drum.names(name)?);
            let (named, place) = (self.called.variable(name), self.called.place(other));
            let told = format!("both makers name {named} (the drum maker first in {place})");
            Some(Breach { record, sentence: Sentence::Names, told })
        });
        wrong.collect()
    }

    fn spawns(&self, side: &Side) -> Vec<Breach> {
        let maker = side.maker;
        let others = side.uses(&[kind::SPAWN]).filter(|(_, spawn)| !side.owns(spawn.value));
        let wrong = others.map(|(record, spawn)| {
            let told = format!("{maker} spawns {}", self.with_owner(spawn.value));
            Breach { record, sentence: Sentence::Spawns(maker), told }
        });
        wrong.collect()
    }

    fn awaits(&self, side: &Side) -> Vec<Breach> {
        let maker = side.maker;
        let wrong = side.uses(&side::HOLD).filter_map(|(record, Record { kind, name, .. })| {
            let named = self.called.variable(name);
            let why = match (name, side.sets(name)) {
                (PARAMETER, _) => "which is no variable".to_string(),
                (0..FIRST_SHARED, _) => "a valve".to_string(),
                (_, Some(set)) => format!("which it also sets ({})", self.called.place(set)),
                (_, None) => return None,
            };
            let does = if kind == kind::AWAIT { "awaits" } else { "spawns into" };
            let told = format!("{maker} {does} {named}, {why}");
            Some(Breach { record, sentence: Sentence::Awaits(maker), told })
        });
        wrong.collect()
    }

    fn reads(&self, side: &Side) -> Vec<Breach> {
        let maker = side.maker;
        let wrong = side.uses(&[kind::VARIABLE]).filter_map(|(record, Record { name, .. })| {
            let held = side.holds(name)?;
            let is_await = self.records.get(held).is_some_and(|holder| holder.kind == kind::AWAIT);
            let does = if is_await { "which it awaits" } else { "into which it spawns" };
            let (named, place) = (self.called.variable(name), self.called.place(held));
            let told = format!("{maker} reads {named}, {does} ({place})");
            Some(Breach { record, sentence: Sentence::Reads(maker), told })
        });
        wrong.collect()
    }

    /// Whose a procedure is.
    fn owners(&self, number: usize) -> Vec<Maker> {
        let given = [&self.pump, &self.drum].into_iter().filter(|side| side.procedures.contains(&number));
        given.map(|side| side.maker).collect()
    }

    /// The name or number of a procedure that must not be spawned here, with its owner.
    fn with_owner(&self, procedure: i32) -> String {
        // An accepted table's spawns name no number below 0.
        let number = usize::try_from(procedure).unwrap_or_default();
        let owner = match self.owners(number).first() {
            Some(maker) => format!("which is {maker}'s"),
            None if number == 0 => "the main procedure".to_string(),
            None => "which is neither maker's".to_string(),
        };
        format!("{}, {owner}", self.called.procedure(number))
    }
}

/// The procedures of an accepted table.
fn all(records: &[Record]) -> Vec<Procedure> {
    let mut found = Vec::new();
    let mut header = 0;
    while let Some(record) = records.get(header) {
        let body = header + 1..header + 1 + usize::from(record.span);
        let next = body.end;
        found.push(Procedure { header, body });
        header = next;
    }
    found
}

impl fmt::Display for Maker {
    fn fmt(&self, f: &mut fmt::Formatter) -> fmt::Result {
        f.write_str(match self {
            Maker::Pump => "the pump maker",
            Maker::Drum => "the drum maker",
        })
    }
}

impl fmt::Display for Sentence {
    fn fmt(&self, f: &mut fmt::Formatter) -> fmt::Result {
        f.write_str(match self {
            Sentence::Procedures => "no procedure is both makers', and the main one is neither's",
            Sentence::Main => {
                "the main block only spawns one procedure of each maker, with constant arguments, into variables that \
                 nobody else names"
            }
            Sentence::Names => "the makers name disjoint variables and valves",
            Sentence::Spawns(_) => "a maker spawns only its own procedures",
            Sentence::Awaits(_) => {
                "a maker awaits only variables 8 to 63 that are set by spawn alone, and spawns only into such variables"
            }
            Sentence::Reads(_) => "no expression reads the variables that a maker awaits or spawns into",
        })
    }
}

impl fmt::Display for Breach {
    fn fmt(&self, f: &mut fmt::Formatter) -> fmt::Result {
        write!(f, "{}: {}", self.told, self.sentence)
    }
}
