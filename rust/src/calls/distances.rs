//! Distances from a node.

use super::{ffi, lend, Network};

/// Document 01: "Distances from a node: n entries, NONE where none."
///
/// "d(a, b) is the smallest sum of weights over all walks from a to b; d(a, a) = 0; without a walk
/// b can't be reached."
///
/// The answer is the number: 0, or the first condition met of 1 to 5, 7 and 10, of which
/// [`meaning`](super::meaning) gives the wording and [`accepted`](super::accepted) makes a
/// `Result`. Scratch has at least [`scratch_len`](super::scratch_len)`(network, 1)` entries of any
/// contents, and answers at least n.
///
/// "An accepted call with scratch leaves it all zero. Answer arrays hold the answer, then their old
/// entries." "A refusal [...] changes no buffer".
///
/// ```
/// use overlap::calls::{accepted, distances, scratch_len, Network, NONE};
///
/// # fn main() -> Result<(), overlap::Refusal> {
/// // Network N of document 01.
/// let network = Network {
///     starts: &[0, 2, 4, 6, 8, 10, 10],
///     neighbours: &[1, 3, 0, 2, 1, 4, 0, 4, 2, 3],
///     weights: &[4, 5, 4, 3, 3, 7, 5, 3, 7, 3],
/// };
/// let mut scratch = vec![0; scratch_len(network, 1)];
/// let mut answers = [0; 6];
/// accepted(distances(network, 0, &mut scratch, &mut answers))?;
/// assert_eq!(answers, [0, 4, 7, 5, 8, NONE]);
///
/// // The examples of document 01 for numbers 7 and 10: node 6, and 5 answer places.
/// assert_eq!(distances(network, 6, &mut scratch, &mut answers), 7);
/// assert_eq!(distances(network, 0, &mut scratch, &mut answers[..5]), 10);
/// # Ok(())
/// # }
/// ```
#[must_use]
pub fn distances(network: Network<'_>, node: u32, scratch: &mut [u32], answers: &mut [u32]) -> u32 {
    // SAFETY: each pointer and length are those of one slice, lent for the whole call; the two that
    // the call writes are lent to it alone. It touches no word outside the slices. An empty slice
    // has a pointer that is not null.
    unsafe {
        lend!(ffi::overlap_distances(
            ..network,
            node,
            &mut scratch,
            &mut answers
        ))
    }
}
