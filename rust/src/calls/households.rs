//! Sites against a rival's: the households that a site wins, and the sheet of all sites.

use super::{ffi, lend, Listing, Network};

/// Document 02 (Ask 1): "Operators want to see which households a site wins. Two byte arrays are lent,
/// households and sites, both laid out as points. A household is listed for q exactly if it can be
/// reached and fewer than k sites are strictly nearer to it than q".
///
/// q is any node, with a site or without. (Ask 6): "Households on a site's node in Ask 1 still belong
/// to the site." (Ask 8): "Each counts, so a locker has its companions on the node as others at
/// distance 0." "The fresh-build equality, the searches' agreement and the expanded count now count
/// lockers, as Ask 1 counts households and sites." So the sites of a node count each, and a node with
/// several households is listed once.
///
/// The answer is number 0 and the length of the list, with count 0, or the first condition met of 1
/// to 7, 9 and 10. (Ask 1): "6 covers each byte array [...], in the order lent." Scratch has at least
/// [`scratch_len`](super::scratch_len)`(network, k)` entries of any contents, and `answers` at least n.
///
/// Document 01: "Lists are ascending by node." "An accepted call with scratch leaves it all zero.
/// Answer arrays hold the answer, then their old entries." "A refusal returns its number, count 0 and
/// no, and changes no buffer".
///
/// ```
/// use overlap::calls::{self, scratch_len, Network};
///
/// # fn main() -> Result<(), overlap::Refusal> {
/// // Network N of document 01.
/// let network = Network {
///     starts: &[0, 2, 4, 6, 8, 10, 10],
///     neighbours: &[1, 3, 0, 2, 1, 4, 0, 4, 2, 3],
///     weights: &[4, 5, 4, 3, 3, 7, 5, 3, 7, 3],
/// };
/// let (households, sites) = ([1, 2, 0, 1, 0, 3], [0, 0, 1, 0, 1, 1]);
/// let mut scratch = vec![0; scratch_len(network, 2)];
/// let mut answers = [0; 6];
/// let (s, a) = (&mut scratch[..], &mut answers[..]);
///
/// // The site on node 2 is 7 from node 0, and no site is nearer to that. Node 3 has that on 4 nearer.
/// let listing = calls::households(network, &households, &sites, 2, 1, s, a).accepted()?;
/// assert_eq!(a[..listing.length], [0, 1]);
///
/// // What a new site on node 0 would win: its own household, and for k = 2 those with one site nearer.
/// let listing = calls::households(network, &households, &sites, 0, 1, s, a).accepted()?;
/// assert_eq!(a[..listing.length], [0]);
/// let listing = calls::households(network, &households, &sites, 0, 2, s, a).accepted()?;
/// assert_eq!(a[..listing.length], [0, 1, 3]);
///
/// // Two sites on node 2 are two that are nearer to node 1.
/// let sites = [0, 0, 2, 0, 1, 1];
/// let listing = calls::households(network, &households, &sites, 0, 2, s, a).accepted()?;
/// assert_eq!(a[..listing.length], [0, 3]);
///
/// // Five bytes of households are fewer than n.
/// assert_eq!(calls::households(network, &households[..5], &sites, 0, 1, s, a).number, 6);
/// # Ok(())
/// # }
/// ```
pub fn households(
    network: Network<'_>,
    households: &[u8],
    sites: &[u8],
    q: u32,
    k: u32,
    scratch: &mut [u32],
    answers: &mut [u32],
) -> Listing {
    // SAFETY: each pointer and length are those of one slice, lent for the whole call; the two that
    // the call writes are lent to it alone. It touches no word outside the slices. An empty slice
    // has a pointer that is not null.
    unsafe {
        lend!(ffi::overlap_households(
            ..network,
            &households,
            &sites,
            q,
            k,
            &mut scratch,
            &mut answers
        ))
    }
}

/// Document 02 (Ask 1): "A sheet call writes, for each node, the length of the list of a site there, 0
/// without a site". (Ask 10): "the sheet now names 1 itself", for the k of these lists, whatever that of
/// the short query is. (Ask 8): "A sheet's length counts each household on a listed node."
///
/// So the entry of a node with a site is the sum of the bytes of [`households`] over the list that the
/// call of that name gives for it with k = 1. Where two sites are equally near to a household, both
/// count it.
///
/// (Ask 13): "each entry taken once for each site there", the entries add up to "the number of lists that
/// each household stands on, added over all households". The sum may need more than
/// 32 bits.
///
/// The answer is the number: 0, or the first condition met of 1 to 6 and 10. (Ask 1): "6 covers each
/// byte array [...], in the order lent." "the m of 10 is this k, and 1 for the sheet." So scratch has
/// at least [`scratch_len`](super::scratch_len)`(network, 1)` entries of any contents, and `answers` at
/// least n.
///
/// Document 01: "An accepted call with scratch leaves it all zero. Answer arrays hold the answer, then
/// their old entries." "A refusal [...] changes no buffer".
///
/// ```
/// use overlap::calls::{accepted, scratch_len, sheet, Network};
///
/// # fn main() -> Result<(), overlap::Refusal> {
/// // Network N of document 01.
/// let network = Network {
///     starts: &[0, 2, 4, 6, 8, 10, 10],
///     neighbours: &[1, 3, 0, 2, 1, 4, 0, 4, 2, 3],
///     weights: &[4, 5, 4, 3, 3, 7, 5, 3, 7, 3],
/// };
/// let (households, sites) = ([1, 2, 0, 1, 0, 3], [0, 0, 1, 0, 1, 1]);
/// let mut scratch = vec![0; scratch_len(network, 1)];
/// let mut answers = [0; 6];
///
/// // The site on node 2 wins the household on node 0 and the two on node 1, that on 4 the one on node
/// // 3, and that on 5 the three on its own node.
/// accepted(sheet(network, &households, &sites, &mut scratch, &mut answers))?;
/// assert_eq!(answers, [0, 0, 3, 0, 1, 3]);
///
/// // Nodes 0 and 4 are both 7 from node 2, so sites there both count its two households.
/// let (households, sites) = ([0, 0, 2, 0, 0, 0], [1, 0, 0, 0, 1, 0]);
/// accepted(sheet(network, &households, &sites, &mut scratch, &mut answers))?;
/// assert_eq!(answers, [2, 0, 0, 0, 2, 0]);
///
/// // A byte of 16 is above 15, and five answer places are fewer than n.
/// let many = [16, 0, 0, 0, 1, 0];
/// assert_eq!(sheet(network, &households, &many, &mut scratch, &mut answers), 6);
/// assert_eq!(sheet(network, &households, &sites, &mut scratch, &mut answers[..5]), 10);
/// # Ok(())
/// # }
/// ```
#[must_use]
pub fn sheet(
    network: Network<'_>,
    households: &[u8],
    sites: &[u8],
    scratch: &mut [u32],
    answers: &mut [u32],
) -> u32 {
    // SAFETY: as for `households`.
    unsafe {
        lend!(ffi::overlap_sheet(
            ..network,
            &households,
            &sites,
            &mut scratch,
            &mut answers
        ))
    }
}
