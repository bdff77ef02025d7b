//! Which tasks share a lane.

use crate::timeline::{Lane, Timeline};

/// Each task has a lane of its own where there are so many at most.
pub const OWN: usize = 40;

/// A task and what it does.
pub type Life<'t> = (u16, &'t Lane);

/// The lanes. With many tasks a lane is reused once its task has ended: no more are needed than tasks live at once.
pub fn pack(timeline: &Timeline) -> Vec<Vec<Life<'_>>> {
    let lives = timeline.lanes.iter().map(|(task, lane)| (*task, lane));
    if timeline.lanes.len() <= OWN {
        return lives.map(|life| vec![life]).collect();
    }
    let mut rows: Vec<Vec<Life>> = Vec::new();
    // Numbers are issued in the order of the spawns.
    for life in lives {
        match free(&mut rows, life) {
            Some(row) => row.push(life),
            None => rows.push(vec![life]),
        }
    }
    rows
}

/// A lane whose last task has ended before this one begins, of the same procedure if there is one.
fn free<'r, 't>(rows: &'r mut [Vec<Life<'t>>], (_, lane): Life<'t>) -> Option<&'r mut Vec<Life<'t>>> {
    let last = |row: &Vec<Life<'t>>| row.last().map(|(_, last)| *last);
    let is_free = |row: &Vec<Life<'t>>| last(row).is_some_and(|last| end(last) <= begin(lane));
    let alike = |row: &Vec<Life<'t>>| last(row).is_some_and(|last| last.procedure == lane.procedure);
    let best = rows.iter().position(|row| is_free(row) && alike(row)).or_else(|| rows.iter().position(is_free));
    best.and_then(|index| rows.get_mut(index))
}

/// When a task's lane begins: at its spawn, or at the left edge.
pub fn begin(lane: &Lane) -> f64 {
    lane.bars.first().map_or(0.0, |bar| bar.from)
}

fn end(lane: &Lane) -> f64 {
    lane.bars.last().and_then(|bar| bar.to).unwrap_or(f64::INFINITY)
}

#[cfg(test)]
mod tests {
    use super::*;
    use crate::timeline::{Bar, Doing};

    /// Tasks that each last from their number on for so long, of two procedures in turn.
    fn timeline(tasks: u16, length: f64) -> Timeline {
        let lane = |task: u16| {
            let from = f64::from(task);
            let bars = vec![Bar { doing: Doing::Burst, from, to: Some(from + length) }];
            Lane { procedure: Some(task % 2), bars, ..Lane::default() }
        };
        Timeline { lanes: (1..=tasks).map(|task| (task, lane(task))).collect(), ..Timeline::default() }
    }

    #[test]
    fn a_few_tasks_have_lanes_of_their_own() {
        let few = timeline(40, 1.0);
        assert!(pack(&few).iter().all(|row| row.len() == 1));
        assert_eq!(pack(&few).len(), 40);
    }

    #[test]
    fn many_tasks_share_as_many_lanes_as_are_live_at_once() {
        for live in [1_u8, 2, 7, 32] {
            let many = timeline(500, f64::from(live));
            let rows = pack(&many);
            assert_eq!(rows.len(), usize::from(live));
            assert_eq!(rows.iter().map(Vec::len).sum::<usize>(), 500);
            for pair in rows.iter().flat_map(|row| row.windows(2)) {
                assert!(end(pair[0].1) <= begin(pair[1].1));
            }
        }
    }

    #[test]
    fn a_lane_stays_with_its_procedure_where_it_can() {
        let rows = pack(&timeline(100, 1.5)).len();
        assert_eq!(rows, 2);
        let many = timeline(100, 1.5);
        assert!(pack(&many).iter().all(|row| row.iter().all(|(task, _)| task % 2 == row[0].0 % 2)));
    }
}
