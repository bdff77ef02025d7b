//! What stands above the picture.

use recipe_runner::Ending;

use crate::timeline::Timeline;
use crate::words::counted;

use super::cut;

/// File names of more characters are cut in the title.
const NAME: usize = 30;

/// What is told of the run.
#[derive(Clone, Copy, Debug)]
pub struct Heading<'a> {
    pub name: &'a str,
    pub ending: Ending,
    pub steps: u32,
    /// The steps at most.
    pub most: u32,
    /// The saved state that the run begins with.
    pub resumed: Option<&'a str>,
    /// The names of the procedures, in their order; none where they are not at hand.
    pub procedures: &'a [String],
}

impl Heading<'_> {
    /// The picture's title.
    pub fn title(&self, timeline: &Timeline) -> String {
        let ending = match self.ending {
            // The log of the picture has no end of its own.
            Ending::Logfull => "cut".to_string(),
            ending => ending.to_string(),
        };
        let part = if whole(timeline) { String::new() } else { format!(", {}", part(timeline)) };
        format!("{}: {ending}, {}{part}", cut(self.name, NAME), counted(self.steps as usize, "step"))
    }

    /// The lines below the title.
    pub fn lines(&self, timeline: &Timeline, lanes: usize) -> Vec<String> {
        let tasks = counted(timeline.lanes.len(), "task");
        let shared = lanes < timeline.lanes.len();
        let tasks = if shared { format!("{tasks} in {}", counted(lanes, "lane")) } else { tasks };
        let records = counted(timeline.records, "log record");
        let run = format!("{records}, {} steps at most. {}", self.most, self.why(timeline));
        let begins = self.resumed.map(|state| format!("The run begins with the saved state {}.", cut(state, NAME)));
        let (run, shown) = if whole(timeline) {
            (format!("{tasks}, {run}"), None)
        } else {
            (run, Some(format!("Shown: {} of them, {tasks}.", part(timeline))))
        };
        let below: Vec<String> = begins.into_iter().chain(shown).collect();
        let below = (!below.is_empty()).then(|| below.join(" "));
        [Some(run), below].into_iter().flatten().collect()
    }

    fn why(&self, timeline: &Timeline) -> String {
        let why = match self.ending {
            Ending::Finished => "No task is left.",
            Ending::Paused => "The steps are used up.",
            Ending::Stuck => "Every task waits for a number that is not done or for an untrue guard.",
            Ending::Tasks => "The next step is a spawn, and 32 tasks are live.",
            Ending::Spent => "The next step is a spawn, and all numbers are issued.",
            Ending::Logfull => return format!("It goes on: no more than {} records are drawn.", timeline.records),
            Ending::Novalue { place } => return format!("The statement at record {place} divides by 0."),
        };
        why.to_string()
    }
}

fn whole(timeline: &Timeline) -> bool {
    (timeline.from, timeline.to) == (0, timeline.records)
}

fn part(timeline: &Timeline) -> String {
    format!("records {} to {}", timeline.from, timeline.to)
}
