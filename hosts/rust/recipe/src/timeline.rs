//! What each task does in the course of a run.
//!
//! Time is counted in log records: record `i` takes the time from `i` to `i + 1`, and what happens at it is placed in
//! its middle. The run begins with a fresh state or a saved one.

use std::collections::BTreeMap;

use recipe_runner::{Ending, Kind, Record};

use crate::block::Wait;
use crate::course::{Course, Live, Seen};

#[derive(Clone, Copy, Debug, PartialEq)]
pub enum Doing {
    /// Active, from being taken up to giving way, waiting or ending.
    Burst,
    /// In the ready queue, after its spawn or a suspend.
    Queued,
    /// In the queue at an await or a guard.
    Waits(Wait),
}

#[derive(Clone, Copy, Debug, PartialEq)]
pub struct Bar {
    pub doing: Doing,
    pub from: f64,
    /// None where it lasts until the run's end.
    pub to: Option<f64>,
}

/// A try that turned the task to the back.
#[derive(Clone, Copy, Debug, PartialEq)]
pub struct Turn {
    pub at: f64,
    pub wait: Wait,
}

#[derive(Clone, Copy, Debug, PartialEq)]
pub struct Setting {
    pub at: f64,
    pub valve: u8,
    pub value: i32,
}

#[derive(Clone, Copy, Debug, PartialEq)]
pub struct Spawn {
    pub at: f64,
    pub spawner: u16,
    pub spawned: u16,
}

/// A value that a valve has from a time on, and the task that set it; none where the run begins with it.
#[derive(Clone, Copy, Debug, PartialEq)]
pub struct Level {
    pub from: f64,
    pub value: i32,
    pub task: Option<u16>,
}

/// The life of one task.
#[derive(Clone, Debug, Default, PartialEq)]
pub struct Lane {
    /// The task that spawned it; none of the main task.
    pub starter: Option<u16>,
    /// The procedure that it runs, by its number.
    pub procedure: Option<u16>,
    /// Up to the run's end.
    pub taken_up: u32,
    pub bars: Vec<Bar>,
    pub turns: Vec<Turn>,
    pub settings: Vec<Setting>,
    pub ended: Option<f64>,
    /// What the task waits for where the run is stuck, by the last state.
    pub held: Option<Wait>,
}

impl Lane {
    fn finish(&mut self, at: f64) {
        if let Some(bar) = self.bars.last_mut() {
            bar.to = Some(at);
        }
    }

    fn begin(&mut self, doing: Doing, from: f64) {
        self.finish(from);
        self.bars.push(Bar { doing, from, to: None });
    }

    /// Corrects the bar of a queued task that is seen to wait: its next statement did not change since it was put back.
    fn is_seen_to_wait(&mut self, wait: Wait) {
        if let Some(bar) = self.bars.last_mut().filter(|bar| bar.doing == Doing::Queued && bar.to.is_none()) {
            bar.doing = Doing::Waits(wait);
        }
    }

    fn is_held(&mut self, wait: Wait) {
        self.is_seen_to_wait(wait);
        self.held = Some(wait);
    }

    /// The part of it that lies in a window; none where the task is not live there.
    fn part(&self, window: Window) -> Option<Lane> {
        let bars: Vec<Bar> = self.bars.iter().filter_map(|bar| window.bar(bar)).collect();
        if bars.is_empty() {
            return None;
        }
        Some(Lane {
            starter: self.starter,
            procedure: self.procedure,
            taken_up: self.taken_up,
            bars,
            turns: window.events(&self.turns, |turn| turn.at),
            settings: window.events(&self.settings, |setting| setting.at),
            ended: self.ended.filter(|end| window.from < *end && *end <= window.to),
            held: self.held.filter(|_| window.last),
        })
    }
}

/// A part of the time.
#[derive(Clone, Copy, Debug)]
struct Window {
    from: f64,
    to: f64,
    /// Whether it reaches to the run's end.
    last: bool,
}

impl Window {
    fn events<T: Copy>(self, events: &[T], at: impl Fn(&T) -> f64) -> Vec<T> {
        events.iter().filter(|event| self.from < at(event) && at(event) < self.to).copied().collect()
    }

    /// The part of a bar that lies in the window. One that begins at the run's end has no width there and is kept: it
    /// tells what its task does then.
    fn bar(self, bar: &Bar) -> Option<Bar> {
        let begins = bar.from < self.to || self.last;
        let ends = bar.to.is_none_or(|to| self.from < to);
        let to = if self.last { bar.to } else { Some(bar.to.map_or(self.to, |to| to.min(self.to))) };
        (begins && ends).then_some(Bar { doing: bar.doing, from: bar.from.max(self.from), to })
    }

    /// The levels of a valve, the first of them the one at the left edge.
    fn levels(self, levels: &[Level]) -> Vec<Level> {
        let before = levels.iter().rev().find(|level| level.from <= self.from);
        let first = before.map(|level| Level { from: self.from, ..*level });
        first.into_iter().chain(self.events(levels, |level| level.from)).collect()
    }
}

/// The task at whose statement a missing value stopped the run, and the statement's record.
#[derive(Clone, Copy, Debug, PartialEq)]
pub struct Lacking {
    pub task: u16,
    pub place: u32,
}

#[derive(Clone, Debug, Default, PartialEq)]
pub struct Timeline {
    /// By task number.
    pub lanes: BTreeMap<u16, Lane>,
    pub spawns: Vec<Spawn>,
    /// By valve, each with its value at the left edge first.
    pub valves: Vec<Vec<Level>>,
    /// The records of the run, and the part of them that is shown.
    pub records: usize,
    pub from: usize,
    pub to: usize,
    pub lacking: Option<Lacking>,
}

impl Timeline {
    /// What the tasks and valves do in a course.
    pub fn of(course: &Course) -> Timeline {
        let mut timeline = Timeline::default();
        let begins = |value: &i32| vec![Level { from: 0.0, value: *value, task: None }];
        timeline.valves = course.valves.iter().map(begins).collect();
        course.live.iter().for_each(|live| timeline.take_over(live));
        for seen in &course.seen {
            timeline.add(*seen);
            timeline.records += 1;
        }
        timeline.to = timeline.records;
        match course.ending {
            // Every queued task waits at what it stands at.
            Ending::Stuck => course.standing.iter().for_each(|(task, wait)| timeline.lane(*task).is_held(*wait)),
            Ending::Novalue { place } => timeline.lacking = timeline.active().map(|task| Lacking { task, place }),
            _ => {}
        }
        timeline
    }

    /// What lies between two counts of records.
    pub fn part(&self, from: usize, to: usize) -> Timeline {
        let to = to.min(self.to);
        let window = Window { from: from as f64, to: to as f64, last: to == self.records };
        let lanes = self.lanes.iter().filter_map(|(task, lane)| Some((*task, lane.part(window)?)));
        Timeline {
            lanes: lanes.collect(),
            spawns: window.events(&self.spawns, |spawn| spawn.at),
            valves: self.valves.iter().map(|levels| window.levels(levels)).collect(),
            records: self.records,
            from,
            to,
            lacking: self.lacking.filter(|_| window.last),
        }
    }

    /// The valves that are set or not 0, each with its levels.
    pub fn used_valves(&self) -> impl Iterator<Item = (usize, &[Level])> {
        let used = |levels: &[Level]| levels.len() > 1 || levels.iter().any(|level| level.value != 0);
        self.valves.iter().map(Vec::as_slice).enumerate().filter(move |(_, levels)| used(levels))
    }

    /// A task that the run begins with.
    fn take_over(&mut self, Live { task, procedure, active, wait }: &Live) {
        let queued = wait.map_or(Doing::Queued, Doing::Waits);
        let lane = self.lane(task.number);
        (lane.starter, lane.procedure, lane.taken_up) = (task.spawner, *procedure, task.taken_up);
        lane.begin(if *active { Doing::Burst } else { queued }, 0.0);
    }

    /// The task whose burst lasts until the run's end.
    fn active(&self) -> Option<u16> {
        let bursts = |lane: &Lane| lane.bars.last().is_some_and(|bar| bar.doing == Doing::Burst && bar.to.is_none());
        self.lanes.iter().find(|(_, lane)| bursts(lane)).map(|(task, _)| *task)
    }

    fn lane(&mut self, task: u16) -> &mut Lane {
        self.lanes.entry(task).or_default()
    }

    fn add(&mut self, Seen { record, at_guard, procedure }: Seen) {
        let Record { kind, task, valve, value } = record;
        let wait = if at_guard { Wait::Guard } else { Wait::Await(value) };
        let begin = self.records as f64;
        let (at, end) = (begin + 0.5, begin + 1.0);
        let lane = self.lane(task);
        match kind {
            Kind::Taken => {
                lane.taken_up = lane.taken_up.saturating_add(1);
                lane.begin(Doing::Burst, begin);
            }
            Kind::Gave => lane.begin(Doing::Queued, end),
            Kind::Waits => lane.begin(Doing::Waits(wait), end),
            Kind::Turned => {
                lane.is_seen_to_wait(wait);
                lane.turns.push(Turn { at, wait });
            }
            Kind::Valve => {
                lane.settings.push(Setting { at, valve, value });
                let levels = self.valves.get_mut(usize::from(valve));
                levels.into_iter().for_each(|levels| levels.push(Level { from: at, value, task: Some(task) }));
            }
            Kind::Ended => {
                lane.finish(end);
                lane.ended = Some(end);
            }
            Kind::Spawned => {
                // A number issued is 1 to 65,535.
                let spawned = u16::try_from(value).unwrap_or_default();
                let lane = self.lane(spawned);
                (lane.starter, lane.procedure) = (Some(task), procedure);
                lane.begin(Doing::Queued, at);
                self.spawns.push(Spawn { at, spawner: task, spawned });
            }
        }
    }
}

#[cfg(test)]
mod tests {
    use super::*;
    use recipe_runner::Task;

    /// The course with these records: kind, task, valve, value, and whether it is a wait's at a guard.
    fn course(log: &[(Kind, u16, u8, i32, bool)], ending: Ending, standing: &[(u16, Wait)]) -> Course {
        let seen = log.iter().map(|(kind, task, valve, value, at_guard)| Seen {
            record: Record { kind: *kind, task: *task, valve: *valve, value: *value },
            at_guard: *at_guard,
            procedure: None,
        });
        let task = Task { number: 1, place: 1, parameter: 0, spawner: None, taken_up: 0 };
        let live = vec![Live { task, procedure: Some(0), active: true, wait: None }];
        let (seen, standing) = (seen.collect(), standing.iter().copied().collect());
        Course { live, valves: vec![0; 8], seen, ending, steps: 0, standing }
    }

    #[test]
    fn the_log_of_recipe_a_gives_two_lanes() {
        let log = [
            (Kind::Spawned, 1, 0, 2, false),
            (Kind::Waits, 1, 0, 2, false),
            (Kind::Taken, 2, 0, 0, false),
            (Kind::Valve, 2, 1, 5, false),
            (Kind::Ended, 2, 0, 0, false),
            (Kind::Taken, 1, 0, 0, false),
            (Kind::Valve, 1, 0, 1, false),
            (Kind::Ended, 1, 0, 0, false),
        ];
        let timeline = Timeline::of(&course(&log, Ending::Finished, &[]));
        assert_eq!(timeline.records, 8);
        assert_eq!(timeline.spawns, [Spawn { at: 0.5, spawner: 1, spawned: 2 }]);
        let bar = |doing, from, to| Bar { doing, from, to: Some(to) };
        let waits = Doing::Waits(Wait::Await(2));
        let main = [bar(Doing::Burst, 0.0, 2.0), bar(waits, 2.0, 5.0), bar(Doing::Burst, 5.0, 8.0)];
        assert_eq!(timeline.lanes[&1].bars, main);
        assert_eq!(timeline.lanes[&1].ended, Some(8.0));
        let starters = [1, 2].map(|task| (timeline.lanes[&task].starter, timeline.lanes[&task].taken_up));
        assert_eq!(starters, [(None, 1), (Some(1), 1)]);
        assert_eq!(timeline.lanes[&2].bars, [bar(Doing::Queued, 0.5, 2.0), bar(Doing::Burst, 2.0, 5.0)]);
        assert_eq!(timeline.lanes[&2].settings, [Setting { at: 3.5, valve: 1, value: 5 }]);
        let level = |from, value, task| Level { from, value, task };
        let levels = [level(0.0, 0, None), level(3.5, 5, Some(2))];
        assert_eq!(timeline.used_valves().last(), Some((1, &levels[..])));
        assert_eq!(timeline.used_valves().count(), 2);
    }

    #[test]
    fn a_turn_and_a_stuck_end_tell_that_a_task_waits() {
        let spawned = [2, 3, 4].map(|task| (Kind::Spawned, 1, 0, task, false));
        let log = [&spawned[..], &[(Kind::Ended, 1, 0, 0, false), (Kind::Turned, 2, 0, 9, false)]].concat();
        let standing = [(2, Wait::Await(8)), (3, Wait::Guard), (4, Wait::Await(-1))];
        let bar = |doing, from| [Bar { doing, from, to: None }];
        let stuck = Timeline::of(&course(&log, Ending::Stuck, &standing));
        // The bar keeps the number at the turn; the lane's end has the one of the last state.
        assert_eq!(stuck.lanes[&2].bars, bar(Doing::Waits(Wait::Await(9)), 0.5));
        assert_eq!(stuck.lanes[&3].bars, bar(Doing::Waits(Wait::Guard), 1.5));
        assert_eq!(stuck.lanes[&4].bars, bar(Doing::Waits(Wait::Await(-1)), 2.5));
        let held = [1, 2, 3, 4].map(|task| stuck.lanes[&task].held);
        assert_eq!(held, [None, Some(Wait::Await(8)), Some(Wait::Guard), Some(Wait::Await(-1))]);
        let paused = Timeline::of(&course(&log, Ending::Paused, &standing));
        assert_eq!(paused.lanes[&3].bars, bar(Doing::Queued, 1.5));
        assert!(paused.lanes.values().all(|lane| lane.held.is_none()));
    }

    #[test]
    fn a_missing_value_stops_the_active_task() {
        let log = [(Kind::Spawned, 1, 0, 2, false), (Kind::Gave, 1, 0, 0, false), (Kind::Taken, 2, 0, 0, false)];
        for (records, task) in [(0, 1), (1, 1), (3, 2)] {
            let stopped = course(&log[..records], Ending::Novalue { place: 7 }, &[]);
            assert_eq!(Timeline::of(&stopped).lacking, Some(Lacking { task, place: 7 }));
        }
        assert_eq!(Timeline::of(&course(&log, Ending::Paused, &[])).lacking, None);
    }

    #[test]
    fn a_guard_is_told_from_an_await_of_0() {
        for (at_guard, wait) in [(true, Wait::Guard), (false, Wait::Await(0))] {
            let log = [(Kind::Waits, 1, 0, 0, at_guard)];
            let main = &Timeline::of(&course(&log, Ending::Paused, &[])).lanes[&1];
            assert_eq!(main.bars[1], Bar { doing: Doing::Waits(wait), from: 1.0, to: None });
        }
    }

    #[test]
    fn a_turn_is_no_taking_up() {
        let log = [(Kind::Waits, 1, 0, 0, true), (Kind::Turned, 1, 0, 0, true)];
        let main = &Timeline::of(&course(&log, Ending::Paused, &[])).lanes[&1];
        assert_eq!((main.turns.as_slice(), main.taken_up), (&[Turn { at: 1.5, wait: Wait::Guard }][..], 0));
    }
}
