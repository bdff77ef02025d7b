//! The main block of a recipe of two makers.

use super::{Breach, Sentence, TwoMakers};
use crate::table::{kind, Record, PARAMETER};

/// The main procedure's record.
const MAIN: usize = 0;

/// Which procedures of the makers the main block has spawned so far.
#[derive(Default)]
struct Spawned {
    first: Option<i32>,
    /// Whether one of each maker's is among them.
    both: bool,
}

impl TwoMakers<'_> {
    /// The statements of the main block that are not as they have to be. If each is, and no procedure of some maker is
    /// spawned, the main procedure.
    pub(super) fn main_block(&self) -> Vec<Breach> {
        let breach = |record, told| Breach { record, sentence: Sentence::Main, told };
        let mut spawned = Spawned::default();
        let mut found = Vec::new();
        for (index, statement) in self.main_statements() {
            let wrong = self.wrong_statement(index, statement, &mut spawned);
            found.extend(wrong.into_iter().map(|told| breach(index, told)));
        }
        if found.is_empty() && !spawned.both {
            let missing = match spawned.first {
                None => "either maker's".to_string(),
                Some(procedure) if self.pump.owns(procedure) => format!("{}'s", self.drum.maker),
                Some(_) => format!("{}'s", self.pump.maker),
            };
            found.push(breach(MAIN, format!("the main block spawns no procedure of {missing}")));
        }
        found
    }

    fn main_statements(&self) -> Vec<(usize, Record)> {
        let body = self.all.first().map_or(0..0, |main| main.body.clone());
        let mut found = Vec::new();
        let mut next = body.start;
        while let Some(record) = self.records.get(next).filter(|_| next < body.end) {
            found.push((next, *record));
            next += 1 + usize::from(record.span);
        }
        found
    }

    /// What is wrong with a statement of the main block.
    fn wrong_statement(&self, index: usize, statement: Record, spawned: &mut Spawned) -> Vec<String> {
        if statement.kind != kind::SPAWN {
            return vec!["the main block has a statement here that is no spawn".to_string()];
        }
        let argument = self.records.get(index + 1).is_some_and(|argument| argument.kind == kind::CONSTANT);
        let argument = (!argument).then(|| "the argument of this spawn of the main block is no constant".to_string());
        let procedure = self.wrong_procedure(statement.value, spawned);
        procedure.into_iter().chain(argument).chain(self.wrong_variable(statement.name)).collect()
    }

    /// What is wrong with the procedure that is spawned next.
    fn wrong_procedure(&self, procedure: i32, spawned: &mut Spawned) -> Option<String> {
        let (pump, drum) = (self.pump.owns(procedure), self.drum.owns(procedure));
        if !pump && !drum {
            return Some(format!("the main block spawns {}", self.with_owner(procedure)));
        }
        let Some(first) = spawned.first else {
            spawned.first = Some(procedure);
            return None;
        };
        let others = (drum && self.pump.owns(first)) || (pump && self.drum.owns(first));
        if others && !spawned.both {
            spawned.both = true;
            return None;
        }
        let maker = if pump { self.pump.maker } else { self.drum.maker };
        Some(format!("the main block spawns a second procedure of {maker}'s here"))
    }

    /// What is wrong with the variable that the number goes into.
    fn wrong_variable(&self, name: u8) -> Vec<String> {
        let named = self.called.variable(name);
        if name == PARAMETER {
            return vec![format!("the main block spawns into {named}, which is no variable")];
        }
        let naming = [&self.pump, &self.drum].into_iter().filter_map(|side| Some((side.maker, side.names(name)?)));
        let told = naming.map(|(maker, record)| {
            let place = self.called.place(record);
            format!("the main block spawns into {named}, which {maker} also names ({place})")
        });
        told.collect()
    }
}
