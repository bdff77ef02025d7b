//! Many recipes checked in one call.

#[cfg(feature = "alloc")]
use alloc::{vec, vec::Vec};

#[cfg(feature = "alloc")]
use crate::calls::check_all;
use crate::ending::Refusal;
use crate::OUTCOME;

/// What [`State::start`](crate::State::start) says of a recipe.
pub type Outcome = Result<(), Refusal>;

/// The outcomes that [`check_all`](crate::check_all) has written, in the recipes' order.
pub fn outcomes(space: &[u8]) -> impl Iterator<Item = Outcome> + '_ {
    space.chunks_exact(OUTCOME).filter_map(outcome)
}

/// Checks recipes in one call, [`BATCH`](crate::BATCH) at most; 26 where there are more.
///
/// ```
/// use recipe_runner::check;
///
/// // A main task that ends at once, and a table of no records.
/// let outcomes = check(&[&[1, 0, 0, 0, 0, 0, 0, 0], &[]])?;
/// assert!(outcomes[0].is_ok());
/// assert_eq!(outcomes[1].unwrap_err().number, 11);
/// # Ok::<(), recipe_runner::Refusal>(())
/// ```
#[cfg(feature = "alloc")]
pub fn check(recipes: &[&[u8]]) -> Result<Vec<Outcome>, Refusal> {
    // No length that the list cannot say adds up to the buffer.
    let lengths: Vec<_> = recipes.iter().map(|r| u32::try_from(r.len()).unwrap_or(u32::MAX).to_le_bytes()).collect();
    let mut space = vec![0; OUTCOME * recipes.len()];
    match check_all(&recipes.concat(), &lengths.concat(), &mut space) {
        0 => Ok(outcomes(&space).collect()),
        number => Err(Refusal { number, place: 0 }),
    }
}

fn outcome(bytes: &[u8]) -> Option<Outcome> {
    let [n0, n1, n2, n3, p0, p1, p2, p3] = bytes.try_into().ok()?;
    let (number, place) = (u32::from_le_bytes([n0, n1, n2, n3]), u32::from_le_bytes([p0, p1, p2, p3]));
    Some(if number == 0 { Ok(()) } else { Err(Refusal { number, place }) })
}
