//! Verify: whether fewer than k other lockers are strictly nearer to point p than q, and p is not on q.
//!
//! Words of scratch: an area.

use super::site::Site;
use overlap::calls::{Network, Verdict};

#[inline(never)]
pub fn verify(
    network: Network<'_>,
    points: &[u8],
    p: u32,
    q: u32,
    k: u32,
    scratch: &mut [u32],
) -> Verdict {
    let site = Site {
        network,
        points,
        q,
        k: k as usize,
    };
    let number = number(site, p, scratch.len());
    if number != 0 {
        return Verdict { number, yes: 0 };
    }
    scratch.fill(0);
    let yes = site.verify(p, scratch);
    Verdict {
        number,
        yes: u32::from(yes),
    }
}

/// The first condition met of 1 to 7, 9, 10 and 11, or 0.
fn number(site: Site<'_>, p: u32, scratch: usize) -> u32 {
    let of_place = site.place_number();
    if of_place != 0 {
        of_place
    } else if p as usize >= site.points.len() {
        7
    } else {
        match site.k_number(scratch, Site::eager_words) {
            0 if site.points[p as usize] == 0 => 11,
            number => number,
        }
    }
}
