//! Of an own table and a rival's, the row whose first entry is nearer.

use super::network_check;
use overlap::calls::{Network, RowPart, TwoTables};

#[inline(never)]
pub fn nearer_row_part(network: Network<'_>, junction: u32, tables: TwoTables<'_>) -> RowPart {
    let number = number_of(network, junction, tables);
    if number != 0 {
        return RowPart {
            number,
            ..RowPart::default()
        };
    }
    let length = tables.places as usize;
    let start = junction as usize * length;
    let is_rivals = tables.rival_distances[start] < tables.own_distances[start];
    RowPart {
        number,
        rival: u32::from(is_rivals),
        start,
        length,
    }
}

/// The first condition met of 1 to 5, 7 and 8, or 0.
fn number_of(network: Network<'_>, junction: u32, tables: TwoTables<'_>) -> u32 {
    let of_network = network_check(network);
    if of_network != 0 {
        return of_network;
    }
    let n = network.starts.len() - 1;
    let own = [tables.own_ids, tables.own_distances];
    let rivals = [tables.rival_ids, tables.rival_distances];
    let is_long = |array: &&[u32]| Some(array.len()) == n.checked_mul(tables.places as usize);
    if junction as usize >= n {
        7
    } else if !(2..=17).contains(&tables.places) || !own.iter().chain(&rivals).all(is_long) {
        8
    } else {
        0
    }
}
