//! The library against the model, on random cases.
//!
//! RECIPE_SEED and RECIPE_CASES choose others: the seed is a whole number, and each case is made from it and its index.

use compare::check::Coverage;
use compare::generate::random_case;
use compare::random::Random;
use std::io::Write;
use std::sync::atomic::{AtomicU64, Ordering};
use std::time::{Duration, Instant};

const SEED: u64 = 20_230_416;
const CASES: u64 = 1_200_000;

fn setting(name: &str, otherwise: u64) -> u64 {
    match std::env::var(name) {
        Ok(text) => text.parse().unwrap_or_else(|_| panic!("{name} is no whole number")),
        Err(_) => otherwise,
    }
}

/// The case at hand. A call that does not end is a difference too, so a case that lasts too long is told.
static CASE: AtomicU64 = AtomicU64::new(0);
const LONGEST: Duration = Duration::from_secs(120);

/// Ends the test at a case that does not end; shrinking takes less time.
fn watch(seed: u64) {
    let mut last = (0, Instant::now());
    loop {
        std::thread::sleep(Duration::from_secs(5));
        let case = CASE.load(Ordering::Relaxed);
        if case != last.0 {
            last = (case, Instant::now());
        } else if last.1.elapsed() > LONGEST {
            let case_again = random_case(&mut Random::of_case(seed, case));
            let _ = write!(std::io::stderr(), "seed {seed}, case {case} does not end\n{case_again}");
            std::process::exit(1);
        }
    }
}

#[test]
fn the_library_equals_the_model() {
    let (seed, cases) = (setting("RECIPE_SEED", SEED), setting("RECIPE_CASES", CASES));
    std::thread::spawn(move || watch(seed));
    let begin = Instant::now();
    let mut coverage = Coverage::default();
    for i in 0..cases {
        CASE.store(i, Ordering::Relaxed);
        let case = random_case(&mut Random::of_case(seed, i));
        coverage.check(&case, format_args!("seed {seed}, case {i}"));
    }
    // Written past the harness, which would keep it back.
    let seconds = begin.elapsed().as_secs_f64();
    let _ = write!(std::io::stdout(), "\nseed {seed}, {seconds:.1} s: {coverage}");
    assert!(cases < 100_000 || coverage.is_whole(), "a published number did not occur");
}
