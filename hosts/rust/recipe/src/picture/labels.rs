//! What stands at a lane's beginning.

use super::cut;
use super::pack::Life;
use crate::timeline::Lane;
use crate::words::counted;

/// Procedure names of more characters are cut.
const NAME: usize = 16;
/// The numbers of tasks that a lane's label has room for.
const NUMBERS: usize = 3;

/// A text at a lane's beginning: itself, a smaller one below, and what is told on pointing.
#[derive(Clone, Debug, Default)]
pub struct Label {
    pub text: String,
    pub below: String,
    pub tip: String,
}

impl Label {
    /// The label of a lane with these tasks.
    pub fn of(lives: &[Life], procedures: &[String]) -> Label {
        match lives {
            [(task, lane)] => Label {
                text: format!("task {}", called(*task, lane, procedures)),
                below: lane.starter.map_or(String::new(), |starter| format!("by task {starter}")),
                tip: origin(*task, lane, procedures),
            },
            _ => shared(lives, procedures),
        }
    }
}

/// The label of a lane that several tasks share.
fn shared(lives: &[Life], procedures: &[String]) -> Label {
    let numbers: Vec<String> = lives.iter().take(NUMBERS).map(|(task, _)| task.to_string()).collect();
    let more = if lives.len() > NUMBERS { ", ..." } else { "" };
    let names: Vec<_> = lives.iter().map(|(_, lane)| procedure(lane, procedures)).collect();
    let one = names.first().copied().flatten().filter(|name| names.iter().all(|other| *other == Some(name)));
    let runs = one.map_or(" in all".to_string(), |name| format!(" of {}", cut(name, NAME)));
    Label {
        text: format!("tasks {}{more}", numbers.join(", ")),
        below: format!("{}{runs}", lives.len()),
        tip: format!("{} tasks, each begun when the one before had ended", lives.len()),
    }
}

/// Which procedure a task runs, who started it, and how often it was taken up.
fn origin(task: u16, lane: &Lane, procedures: &[String]) -> String {
    let runs = match (procedure(lane, procedures), lane.procedure) {
        (Some(name), _) => format!("runs {name}, "),
        (None, Some(number)) => format!("runs procedure {number}, "),
        (None, None) => String::new(),
    };
    let started = lane.starter.map_or(String::new(), |starter| format!("started by task {starter}, "));
    format!("task {task}: {runs}{started}taken up {}", counted(lane.taken_up as usize, "time"))
}

/// The name of a task's procedure, where it is at hand.
fn procedure<'p>(lane: &Lane, procedures: &'p [String]) -> Option<&'p str> {
    procedures.get(usize::from(lane.procedure?)).map(String::as_str)
}

/// A task's number and its procedure.
pub fn called(task: u16, lane: &Lane, procedures: &[String]) -> String {
    procedure(lane, procedures).map_or(task.to_string(), |name| format!("{task} {}", cut(name, NAME)))
}
