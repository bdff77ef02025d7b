//! The shrinker, tried on sides that are wrong on purpose.

use compare::block::task_at;
use compare::case::{compare, Case, Side, LIBRARY, MODEL};
use compare::generate::random_case;
use compare::random::Random;
use compare::shrink::shrink;

/// Whether a case differs from the library on this side.
fn differs(case: &Case, side: &Side) -> bool {
    compare(case, &LIBRARY, side).is_err()
}

/// The first differing cases of a seed, shrunk; the shrinker must keep the difference and add nothing.
fn shrunk(side: &Side, seed: u64) -> Vec<Case> {
    let cases = (0..).map(|i| random_case(&mut Random::of_case(seed, i)));
    let wrong: Vec<Case> = cases.filter(|case| differs(case, side)).take(5).collect();
    let small = wrong.iter().map(|case| shrink(case, &|case| differs(case, side)));
    let small: Vec<Case> = small.collect();
    for (case, large) in small.iter().zip(&wrong) {
        assert!(differs(case, side));
        assert!(case.table.len() <= large.table.len() && case.calls.len() <= large.calls.len());
    }
    small
}

/// A side that counts a turn as two steps.
const COUNTS_TURNS_TWICE: Side = Side {
    run: |table, state, budget, log| {
        let mut answer = (MODEL.run)(table, state, budget, log);
        let written = log.as_chunks::<8>().0.iter().take(answer[2] as usize);
        answer[1] += written.filter(|record| record[0] == 5).count() as u32;
        answer
    },
    ..MODEL
};

#[test]
fn a_wrong_count_shrinks_to_one_turn() {
    for case in shrunk(&COUNTS_TURNS_TWICE, 7) {
        assert_eq!(case.calls.len(), 1, "{case}");
        assert_eq!((case.calls[0].budget, case.calls[0].log.len()), (1, 8), "{case}");
        assert!(case.table.len() <= 32, "{case}");
    }
}

/// A side that counts a turn as a taking up.
const TAKES_TURNS_FOR_TAKINGS: Side = Side {
    run: |table, state, budget, log| {
        let answer = (MODEL.run)(table, state, budget, log);
        let written = log.as_chunks::<8>().0.iter().take(answer[2] as usize);
        for turned in written.filter(|record| record[0] == 5) {
            let live = 1..=usize::from(state[2]);
            let tasks = live.map(task_at).filter(|at| state[*at..*at + 2] == turned[2..4]);
            tasks.collect::<Vec<_>>().into_iter().for_each(|at| state[at + 12] ^= 1);
        }
        answer
    },
    ..MODEL
};

#[test]
fn a_wrong_count_of_takings_shrinks_to_one_turn() {
    for case in shrunk(&TAKES_TURNS_FOR_TAKINGS, 14) {
        assert_eq!(case.calls.len(), 1, "{case}");
        assert_eq!((case.calls[0].budget, case.calls[0].log.len()), (1, 8), "{case}");
        assert!(case.table.len() <= 32 && case.block[2] <= 2, "{case}");
    }
}

/// A side that names a wrong fault of names.
const MISNAMES_NAMES: Side = Side {
    start: |table, state| match (MODEL.start)(table, state) {
        [14, place] => [15, place],
        other => other,
    },
    ..MODEL
};

#[test]
fn a_wrong_refusal_shrinks_to_the_record_with_its_parents_and_operands() {
    for case in shrunk(&MISNAMES_NAMES, 8) {
        assert_eq!(case.calls.len(), 0, "{case}");
        assert_eq!(case.block.len(), 0, "{case}");
        assert!(case.table.len() <= 40, "{case}");
    }
}

/// A side that loses the log's last byte where a valve is set.
const SPOILS_THE_LOG: Side = Side {
    run: |table, state, budget, log| {
        let answer = (MODEL.run)(table, state, budget, log);
        let written = log.as_chunks::<8>().0.iter().take(answer[2] as usize);
        let valve = written.filter(|record| record[0] == 7).count() > 0;
        if let Some(last) = log.last_mut().filter(|_| valve) {
            *last ^= 1;
        }
        answer
    },
    ..MODEL
};

#[test]
fn a_spoilt_log_shrinks_to_one_valve() {
    for case in shrunk(&SPOILS_THE_LOG, 9) {
        assert_eq!(case.calls.len(), 1, "{case}");
        assert_eq!((case.calls[0].budget, case.calls[0].log.len()), (1, 8), "{case}");
        assert!(case.table.len() <= 24, "{case}");
    }
}

/// A side that does not say where a value is missing.
const LOSES_THE_PLACE: Side = Side {
    run: |table, state, budget, log| match (MODEL.run)(table, state, budget, log) {
        [24, steps, records, _] => [24, steps, records, 0],
        other => other,
    },
    ..MODEL
};

#[test]
fn a_lost_place_shrinks_to_one_quotient() {
    for case in shrunk(&LOSES_THE_PLACE, 10) {
        assert_eq!(case.calls.len(), 1, "{case}");
        assert_eq!((case.calls[0].budget, case.calls[0].log.len()), (1, 0), "{case}");
        assert!(case.table.len() <= 40, "{case}");
    }
}

/// A side that does not close a circle.
const LEAVES_CIRCLES_OPEN: Side = Side {
    why_stuck: |table, state, chain| match (MODEL.why_stuck)(table, state, chain) {
        [0, count, 1, 0] => [0, count - 1, 1, 0],
        other => other,
    },
    ..MODEL
};

#[test]
fn an_open_circle_shrinks_to_a_few_waiters() {
    for case in shrunk(&LEAVES_CIRCLES_OPEN, 11) {
        assert_eq!((case.calls.len(), case.chain.len()), (0, 66), "{case}");
        assert!(case.table.len() <= 24 && case.block[2] <= 3, "{case}");
    }
}

/// A side that loses the place of a recipe behind another one.
const LOSES_LATER_PLACES: Side = Side {
    check_all: |recipes, lengths, outcomes| {
        let number = (MODEL.check_all)(recipes, lengths, outcomes);
        if number == 0 {
            outcomes.chunks_exact_mut(8).skip(1).for_each(|outcome| outcome[4..].fill(0));
        }
        number
    },
    ..MODEL
};

#[test]
fn a_lost_place_in_a_batch_shrinks_to_two_short_recipes() {
    for case in shrunk(&LOSES_LATER_PLACES, 12) {
        assert_eq!((case.table.len(), case.block.len(), case.calls.len()), (0, 0, 0), "{case}");
        assert_eq!((case.batch.count(), case.batch.outcomes.len()), (2, 16), "{case}");
        assert!(case.batch.recipes.len() <= 40, "{case}");
    }
}

/// A side that adds the lengths up in 32 bits.
const WRAPS_THE_SUM: Side = Side {
    check_all: |recipes, lengths, outcomes| match (MODEL.check_all)(recipes, lengths, outcomes) {
        26 if sum_wraps(recipes, lengths) => 0,
        number => number,
    },
    ..MODEL
};

fn sum_wraps(recipes: &[u8], lengths: &[u8]) -> bool {
    let words = lengths.as_chunks().0.iter().map(|length| u32::from_le_bytes(*length));
    let (sum, wrapped) = words.fold((0, false), |(sum, wrapped): (u32, bool), length| {
        let (sum, over) = sum.overflowing_add(length);
        (sum, wrapped | over)
    });
    wrapped && sum as usize == recipes.len()
}

#[test]
fn a_sum_that_wraps_shrinks_to_two_lengths() {
    for case in shrunk(&WRAPS_THE_SUM, 13) {
        assert_eq!((case.batch.count(), case.batch.outcomes.len()), (2, 0), "{case}");
    }
}

#[test]
fn right_sides_do_not_differ() {
    for i in 0..200 {
        assert!(!differs(&random_case(&mut Random::of_case(10, i)), &MODEL));
    }
}
