//! The calls as the archive has them, on buffers of any content and length.

/// What the library's `start` returns.
#[repr(C)]
#[derive(Clone, Copy, Debug, PartialEq, Eq)]
pub struct Started {
    /// 0 when accepted, else the refusal's number.
    pub number: u32,
    /// The faulty record; 0 where none is named.
    pub place: u32,
}

/// What the library's `run` returns.
#[repr(C)]
#[derive(Clone, Copy, Debug, PartialEq, Eq)]
pub struct Answer {
    /// The ending's or the refusal's number.
    pub number: u32,
    /// The steps made; 0 when refused.
    pub steps: u32,
    /// The log records written; 0 when refused.
    pub records: u32,
    /// The faulty record, or the statement without a value; 0 where none is named.
    pub place: u32,
}

/// What the library's `why_stuck` returns.
#[repr(C)]
#[derive(Clone, Copy, Debug, PartialEq, Eq)]
pub struct Explained {
    /// 0 when a chain is written, else the refusal's number.
    pub number: u32,
    /// The task numbers written; 0 when refused.
    pub count: u32,
    /// The end's number, 1 to 3; 0 when refused.
    pub end: u32,
    /// The faulty record; 0 where none is named.
    pub place: u32,
}

mod library {
    use super::{Answer, Explained, Started};

    extern "C" {
        pub fn recipe_start(table: *const u8, table_len: usize, state: *mut u8, state_len: usize) -> Started;
        pub fn recipe_run(
            table: *const u8,
            table_len: usize,
            state: *mut u8,
            state_len: usize,
            budget: u32,
            log: *mut u8,
            log_len: usize,
        ) -> Answer;
        pub fn recipe_why_stuck(
            table: *const u8,
            table_len: usize,
            state: *const u8,
            state_len: usize,
            chain: *mut u8,
            chain_len: usize,
        ) -> Explained;
        pub fn recipe_check_all(
            recipes: *const u8,
            recipes_len: usize,
            lengths: *const u8,
            lengths_len: usize,
            outcomes: *mut u8,
            outcomes_len: usize,
        ) -> u32;
    }
}

/// The library's `start`, on buffers of any content and length.
pub fn start(table: &[u8], state: &mut [u8]) -> Started {
    // The borrows keep the buffers alive and apart; the library touches nothing else.
    unsafe { library::recipe_start(table.as_ptr(), table.len(), state.as_mut_ptr(), state.len()) }
}

/// The library's `run`, on buffers of any content and length.
pub fn run(table: &[u8], state: &mut [u8], budget: u32, log: &mut [u8]) -> Answer {
    // As in `start`.
    unsafe {
        library::recipe_run(
            table.as_ptr(),
            table.len(),
            state.as_mut_ptr(),
            state.len(),
            budget,
            log.as_mut_ptr(),
            log.len(),
        )
    }
}

/// The library's `why_stuck`, on buffers of any content and length.
pub fn why_stuck(table: &[u8], state: &[u8], chain: &mut [u8]) -> Explained {
    // As in `start`.
    unsafe {
        library::recipe_why_stuck(
            table.as_ptr(),
            table.len(),
            state.as_ptr(),
            state.len(),
            chain.as_mut_ptr(),
            chain.len(),
        )
    }
}

/// The library's `check_all`, on buffers of any content and length: recipes one after the other, the list of their
/// lengths ([`LENGTH`](crate::LENGTH) bytes each), and space for their [`outcomes`](crate::outcomes()).
/// Gives 0, or 26 where that is no batch.
///
/// ```
/// use recipe_runner::{check_all, outcomes, OUTCOME};
///
/// // A main task that ends at once, and a table of no records.
/// let mut space = [0; 2 * OUTCOME];
/// let number = check_all(&[1, 0, 0, 0, 0, 0, 0, 0], &[8, 0, 0, 0, 0, 0, 0, 0], &mut space);
/// assert_eq!(number, 0);
/// let refused: Vec<_> = outcomes(&space).map(|outcome| outcome.err().map(|refusal| refusal.number)).collect();
/// assert_eq!(refused, [None, Some(11)]);
/// ```
pub fn check_all(recipes: &[u8], lengths: &[u8], outcomes: &mut [u8]) -> u32 {
    // As in `start`.
    unsafe {
        library::recipe_check_all(
            recipes.as_ptr(),
            recipes.len(),
            lengths.as_ptr(),
            lengths.len(),
            outcomes.as_mut_ptr(),
            outcomes.len(),
        )
    }
}
