//! "A season's shelf in one call" (document 02): a batch of recipes, each checked as a start checks it.

use crate::table::{Fault, Recipe};

/// "Up to 64 recipes in one buffer."
const RECIPES: usize = 64;
/// "One number, then its place, four bytes each."
const OUTCOME: usize = 8;

/// "One call checks them all, writes for each in turn one number, then its place, .. and gives 0 or 26." With 26, which
/// comes "before any recipe is looked at", the space for the outcomes is unchanged.
pub fn check_all(recipes: &[u8], lengths: &[u8], outcomes: &mut [u8]) -> u32 {
    match split(recipes, lengths) {
        Some(batch) if outcomes.len() == OUTCOME * batch.len() => {
            for (recipe, written) in batch.iter().zip(outcomes.as_chunks_mut().0) {
                *written = outcome(recipe);
            }
            0
        }
        _ => 26,
    }
}

/// The recipes in turn; none "when the list's bytes are not a multiple of four, there are more than 64, the lengths
/// don't add up to the buffer". Each length is taken off the rest of the buffer, so that no sum is there to wrap.
fn split<'a>(recipes: &'a [u8], lengths: &[u8]) -> Option<Vec<&'a [u8]>> {
    let (lengths, odd) = lengths.as_chunks();
    if !odd.is_empty() || lengths.len() > RECIPES {
        return None;
    }
    let mut batch = Vec::with_capacity(lengths.len());
    let mut rest = recipes;
    for length in lengths {
        let length = usize::try_from(u32::from_le_bytes(*length)).ok()?;
        let (recipe, after) = rest.split_at_checked(length)?;
        batch.push(recipe);
        rest = after;
    }
    rest.is_empty().then_some(batch)
}

/// "What start gives for that recipe alone with a block of the right size": the verdict of its table.
fn outcome(recipe: &[u8]) -> [u8; OUTCOME] {
    let Fault { number, place } = Recipe::read(recipe).err().unwrap_or(Fault::at(0, 0));
    (u64::from(number) | u64::from(place) << 32).to_le_bytes()
}
