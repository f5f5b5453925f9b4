//! Damage of tables. Each kind takes any arrays of n × K entries and keeps their lengths; some change
//! nothing where they find no place.

use super::random::Random;
use super::table::PlainTable;
use overlap::calls::NONE;

pub type Damage = fn(&mut PlainTable, &mut Random);

/// Every kind of damage, with a name for the message of a failed test.
pub const KINDS: &[(&str, Damage)] = &[
    ("another id", |t, r| set(&mut t.ids, node_of, r, t.places)),
    ("an id that is no node", |t, r| {
        set(&mut t.ids, no_node_of, r, t.places)
    }),
    ("an id one more", |t, r| step(&mut t.ids, 1, r)),
    ("an id one less", |t, r| step(&mut t.ids, u32::MAX, r)),
    ("a distance one more", |t, r| step(&mut t.distances, 1, r)),
    ("a distance one less", |t, r| {
        step(&mut t.distances, u32::MAX, r)
    }),
    ("a distance 2^16 more", |t, r| {
        step(&mut t.distances, 1 << 16, r)
    }),
    ("a distance 2^31 more", |t, r| {
        step(&mut t.distances, 1 << 31, r)
    }),
    ("a distance near 2^32", |t, r| {
        set(&mut t.distances, large, r, t.places)
    }),
    ("a small distance", |t, r| {
        set(&mut t.distances, small, r, t.places)
    }),
    ("any id", |t, r| set(&mut t.ids, any, r, t.places)),
    ("any distance", |t, r| {
        set(&mut t.distances, any, r, t.places)
    }),
    ("an id of the padding", |t, r| pad(&mut t.ids, r)),
    ("a distance of the padding", |t, r| pad(&mut t.distances, r)),
    ("two entries swapped", swap_entries),
    ("two ids swapped", swap_ids),
    ("two distances swapped", swap_distances),
    ("an entry twice", double_entry),
    ("a copy of a node missing", drop_copy),
    ("a copy of a node too many", add_copy),
    ("a copy of a node at another distance", move_copy),
    ("an entry dropped", drop_entry),
    ("the last entries dropped", drop_entries),
    ("a row empty", empty_row),
    ("a row of another node", other_row),
    ("two rows swapped", swap_rows),
    ("all distances one more", raise_all),
    ("a point one farther from all nodes", raise_point),
    ("ids shifted", |t, _| t.ids.rotate_right(1)),
    ("distances shifted", |t, _| t.distances.rotate_left(1)),
    ("both arrays shifted", |t, _| {
        t.ids.rotate_right(1);
        t.distances.rotate_right(1);
    }),
    ("arrays changed for each other", |t, _| {
        std::mem::swap(&mut t.ids, &mut t.distances)
    }),
    ("all places empty", |t, _| {
        t.ids.fill(NONE);
        t.distances.fill(NONE);
    }),
    ("all words 0", |t, _| {
        t.ids.fill(0);
        t.distances.fill(0);
    }),
];

/// Damages a table so many times, by any kinds, and at times fills it with any words.
pub fn damage(table: &mut PlainTable, times: u32, random: &mut Random) {
    if times > 0 && random.once_in(8) {
        fill(table, random);
    }
    for _ in 0..times {
        random.pick(KINDS).1(table, random);
    }
}

/// Fills both arrays with nodes and small distances, or with any words.
fn fill(table: &mut PlainTable, random: &mut Random) {
    let n = table.nodes();
    let wild = random.once_in(2);
    let mut word = |most| match random.below(8) {
        0 => NONE,
        1 => large(n, random),
        _ if wild => random.word(),
        _ => random.between(0, most),
    };
    table.ids.iter_mut().for_each(|id| *id = word(n));
    table.distances.iter_mut().for_each(|far| *far = word(20));
}

/// A number for a table of n nodes.
type Word = fn(u32, &mut Random) -> u32;

fn node_of(n: u32, random: &mut Random) -> u32 {
    random.below(n)
}

fn any(_: u32, random: &mut Random) -> u32 {
    random.word()
}

fn small(_: u32, random: &mut Random) -> u32 {
    random.between(0, 4)
}

fn no_node_of(n: u32, random: &mut Random) -> u32 {
    random.pick(&[n, n + 1, 65_535, 65_536 + n / 2, NONE - 1, NONE])
}

/// A word at or above the largest distance.
fn large(_: u32, random: &mut Random) -> u32 {
    let beyond = random.between(4_294_770_690, NONE);
    random.pick(&[4_294_770_690, 4_294_770_691, NONE - 1, NONE, beyond])
}

/// Makes one word another.
fn set(words: &mut [u32], word: Word, random: &mut Random, places: u32) {
    let at = random.index(words.len()).unwrap();
    words[at] = word(words.len() as u32 / places, random);
}

/// Makes one word larger, around 2^32.
fn step(words: &mut [u32], by: u32, random: &mut Random) {
    let at = random.index(words.len()).unwrap();
    words[at] = words[at].wrapping_add(by);
}

/// Makes one empty place of an array another word.
fn pad(words: &mut [u32], random: &mut Random) {
    let empty: Vec<usize> = (0..words.len()).filter(|&at| words[at] == NONE).collect();
    if let Some(at) = random.index(empty.len()) {
        words[empty[at]] = random.pick(&[0, 1, NONE - 1]);
    }
}

/// Two neighbouring places of a row.
fn two_places(table: &PlainTable, random: &mut Random) -> (usize, usize) {
    let row = table.part(random.below(table.nodes()));
    let at = row.start + random.index(table.places as usize - 1).unwrap();
    (at, at + 1)
}

fn swap_entries(table: &mut PlainTable, random: &mut Random) {
    let (a, b) = two_places(table, random);
    table.ids.swap(a, b);
    table.distances.swap(a, b);
}

fn swap_ids(table: &mut PlainTable, random: &mut Random) {
    let (a, b) = two_places(table, random);
    table.ids.swap(a, b);
}

fn swap_distances(table: &mut PlainTable, random: &mut Random) {
    let (a, b) = two_places(table, random);
    table.distances.swap(a, b);
}

fn double_entry(table: &mut PlainTable, random: &mut Random) {
    let (a, b) = two_places(table, random);
    table.ids[b] = table.ids[a];
    table.distances[b] = table.distances[a];
}

/// A place whose node comes again in the next one, or does not, and the end of its row.
fn before_copy(table: &PlainTable, is_copy: bool, random: &mut Random) -> Option<(usize, usize)> {
    let places = table.places as usize;
    let in_row = |&at: &usize| (at + 1) % places != 0 && table.ids[at] != NONE;
    let of_kind = |&at: &usize| (table.ids[at] == table.ids[at + 1]) == is_copy;
    let found: Vec<usize> = (0..table.ids.len())
        .filter(in_row)
        .filter(of_kind)
        .collect();
    let at = found[random.index(found.len())?];
    Some((at, (at / places + 1) * places))
}

/// Drops the second of two entries of a node; those behind it move down.
fn drop_copy(table: &mut PlainTable, random: &mut Random) {
    if let Some((at, end)) = before_copy(table, true, random) {
        drop_at(table, at + 1, end);
    }
}

/// Puts the last entry of a node in again; those behind it move up.
fn add_copy(table: &mut PlainTable, random: &mut Random) {
    if let Some((at, end)) = before_copy(table, false, random) {
        for words in [&mut table.ids, &mut table.distances] {
            words.copy_within(at..end - 1, at + 1);
        }
    }
}

/// Moves the second of two entries of a node farther away, or the first nearer.
fn move_copy(table: &mut PlainTable, random: &mut Random) {
    if let Some((at, _)) = before_copy(table, true, random) {
        let (place, by) = random.pick(&[(at + 1, 1), (at, u32::MAX)]);
        table.distances[place] = table.distances[place].wrapping_add(by);
    }
}

/// Drops an entry; those behind it move down.
fn drop_entry(table: &mut PlainTable, random: &mut Random) {
    let row = table.part(random.below(table.nodes()));
    let place = row.start + random.index(row.len()).unwrap();
    drop_at(table, place, row.end);
}

fn drop_at(table: &mut PlainTable, place: usize, end: usize) {
    for words in [&mut table.ids, &mut table.distances] {
        words[place..end].rotate_left(1);
        words[end - 1] = NONE;
    }
}

fn drop_entries(table: &mut PlainTable, random: &mut Random) {
    let row = table.part(random.below(table.nodes()));
    let place = row.start + random.index(row.len()).unwrap();
    for words in [&mut table.ids, &mut table.distances] {
        words[place..row.end].fill(NONE);
    }
}

fn empty_row(table: &mut PlainTable, random: &mut Random) {
    let row = table.part(random.below(table.nodes()));
    for words in [&mut table.ids, &mut table.distances] {
        words[row.clone()].fill(NONE);
    }
}

fn other_row(table: &mut PlainTable, random: &mut Random) {
    let (n, from) = (table.nodes(), random.below(table.nodes()));
    let (from, to) = (table.part(from), table.part(random.below(n)));
    for words in [&mut table.ids, &mut table.distances] {
        words.copy_within(from.clone(), to.start);
    }
}

fn swap_rows(table: &mut PlainTable, random: &mut Random) {
    let (a, b) = (random.below(table.nodes()), random.below(table.nodes()));
    let (a, b) = (table.part(a), table.part(b));
    for words in [&mut table.ids, &mut table.distances] {
        for (a, b) in a.clone().zip(b.clone()) {
            words.swap(a, b);
        }
    }
}

/// Keeps each step from row to row what it was.
fn raise_all(table: &mut PlainTable, _: &mut Random) {
    for far in table.distances.iter_mut().filter(|far| **far != NONE) {
        *far += 1;
    }
}

/// The same for one point.
fn raise_point(table: &mut PlainTable, random: &mut Random) {
    let p = random.below(table.nodes());
    for (far, _) in table
        .distances
        .iter_mut()
        .zip(&table.ids)
        .filter(|e| *e.1 == p)
    {
        *far = far.wrapping_add(1);
    }
}
