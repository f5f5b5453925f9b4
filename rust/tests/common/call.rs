//! What all calls have in common: everything a call is lent, its outcome by document 01, and the
//! comparison of every lent array, whole, with it.

use std::fmt::Debug;

use super::all_pairs::AllPairs;
use super::damage::damage;
use super::faults::{assert_order, Fault, NETWORK_FAULTS};
use super::inputs::too_short;
use super::lent::Lent;
use super::network::{network_n, shown, shown_points, OwnedNetwork};
use super::numbers::plain_scratch_len;
use super::random::Random;
use super::shapes::random_network;
use super::tally::Tally;
use overlap::calls::{Listing, RowPart, Update, Verdict};

/// What a call returns: its number alone, or one of the structs of `overlap.h`.
pub trait Answer: PartialEq + Debug {
    /// "A refusal returns its number, count 0 and no".
    fn refusal(number: u32) -> Self;
}

impl Answer for u32 {
    fn refusal(number: u32) -> Self {
        number
    }
}

impl Answer for Listing {
    fn refusal(number: u32) -> Self {
        Self {
            number,
            count: 0,
            length: 0,
        }
    }
}

impl Answer for Verdict {
    fn refusal(number: u32) -> Self {
        Self { number, yes: 0 }
    }
}

impl Answer for Update {
    fn refusal(number: u32) -> Self {
        Self { number, changed: 0 }
    }
}

/// Ask 1: "on a refusal an empty part".
impl Answer for RowPart {
    fn refusal(number: u32) -> Self {
        Self {
            number,
            rival: 0,
            start: 0,
            length: 0,
        }
    }
}

/// Everything that a call is lent, and what document 01 says of it.
pub trait Call: Clone + 'static {
    /// What the call returns.
    type Answer: Answer;

    /// Faults of each condition that the call tests beyond those of the network and of scratch.
    const OWN_FAULTS: &'static [(u32, Fault<Self>)];

    /// Whether the call is lent scratch. "Both checks have no scratch."
    const HAS_SCRATCH: bool = true;

    /// Whether the call is lent points.
    const HAS_POINTS: bool = true;

    /// A call that is accepted, with arrays that are long enough.
    fn random(network: &OwnedNetwork, pairs: &AllPairs, random: &mut Random) -> Self;

    /// Lends everything to the engine; the arrays are then what it leaves.
    fn run(&mut self) -> Self::Answer;

    /// The number by document 01.
    fn number(&self) -> u32;

    /// The outcome of a call that is accepted, by all distances of its network.
    fn accepted_by(&self, pairs: &AllPairs) -> Outcome<Self>;

    fn network(&self) -> &OwnedNetwork;

    fn network_mut(&mut self) -> &mut OwnedNetwork;

    /// The lent bytes, if the call is lent any: its points, or its households.
    fn points(&self) -> &[u8] {
        &[]
    }

    /// The lent bytes behind its households.
    fn sites(&self) -> &[u8] {
        &[]
    }

    /// The m of document 01's length S of scratch, for a call whose least length that is.
    fn m(&self) -> u32 {
        unreachable!("S is not the least length of this call's scratch")
    }

    /// The least length of scratch that 10 lets pass, also for a k or K that 9 or 8 refuses.
    fn least_scratch(&self) -> usize {
        plain_scratch_len(self.network().lend(), self.m().min(17))
    }

    fn scratch_mut(&mut self) -> &mut Lent;

    /// The arrays that the call may write, each with its name, scratch first; and the route.
    fn arrays(&self) -> Vec<(&'static str, &Lent)>;

    /// The numbers asked for, in words, for the message of a failed test.
    fn asked(&self) -> String;

    /// Brings in line what belongs together, where damage has left a call that is accepted.
    fn mend(&mut self) {}

    /// Counts what makes an accepted call telling.
    fn tally(&self, tally: &mut Tally, pairs: &AllPairs);

    /// "A refusal returns its number, count 0 and no, and changes no buffer".
    fn refused(&self, number: u32) -> Outcome<Self> {
        (Answer::refusal(number), self.clone())
    }

    /// The inputs, for the message of a failed test.
    fn story(&self) -> String {
        let lengths: Vec<_> = self
            .arrays()
            .iter()
            .map(|(name, array)| (*name, array.len()))
            .collect();
        let (points, network) = (shown_points(self.points()), shown(self.network().lend()));
        let sites = match self.sites() {
            [] => String::new(),
            sites => format!("sites {}, ", shown_points(sites)),
        };
        let asked = self.asked();
        format!("{asked}, lengths {lengths:?}, {points}, {sites}{network}")
    }
}

/// What a call returns, and all that it leaves.
pub type Outcome<C> = (<C as Call>::Answer, C);

/// Runs the call and sees that the answer and every lent array are the expected ones.
pub fn assert_outcome<C: Call>(mut call: C, (answer, left): &Outcome<C>) {
    assert_eq!(call.run(), *answer, "{}", left.story());
    assert_eq!(call.network(), left.network(), "{}", left.story());
    assert_eq!(call.points(), left.points(), "{}", left.story());
    assert_eq!(call.sites(), left.sites(), "{}", left.story());
    for ((name, is), (_, wanted)) in call.arrays().into_iter().zip(left.arrays()) {
        assert_eq!(is.difference(wanted), None, "{name}, {}", left.story());
    }
}

/// Sees that the call is refused with this number.
pub fn assert_refused<C: Call>(call: C, number: u32) {
    let outcome = call.refused(number);
    assert_outcome(call, &outcome);
}

/// Runs the call, sees that all is as document 01 says, and returns the number.
pub fn compare<C: Call>(call: C) -> u32 {
    let number = call.number();
    let outcome = match number {
        0 => call.accepted_by(&AllPairs::of(call.network().lend())),
        number => call.refused(number),
    };
    assert_outcome(call, &outcome);
    number
}

/// 10: "scratch shorter than S". Ask 5: "10 compares with 12 × n for these."
fn shorten_scratch<C: Call>(call: &mut C, random: &mut Random) {
    let length = too_short(call.least_scratch(), random);
    *call = with_scratch(call, length, random);
}

/// Lends the call scratch of just the least length and of one word less, which 10 refuses, each full
/// of junk. The function gives the outcome of the call where 10 lets it pass.
pub fn assert_least_scratch<C: Call>(
    call: &C,
    random: &mut Random,
    outcome_of: impl Fn(&C) -> Outcome<C>,
) {
    let least = call.least_scratch();
    assert_refused(with_scratch(call, least - 1, random), 10);
    let call = with_scratch(call, least, random);
    let outcome = outcome_of(&call);
    assert_outcome(call, &outcome);
}

/// The same, and longer scratch.
pub fn assert_scratch_lengths<C: Call>(
    call: &C,
    random: &mut Random,
    outcome_of: impl Fn(&C) -> Outcome<C>,
) {
    assert_least_scratch(call, random, &outcome_of);
    for longer in [1, random.pick(&[2, 7, 60, 999])] {
        let call = with_scratch(call, call.least_scratch() + longer, random);
        let outcome = outcome_of(&call);
        assert_outcome(call, &outcome);
    }
}

/// This call with scratch of this length, full of junk.
fn with_scratch<C: Call>(call: &C, length: usize, random: &mut Random) -> C {
    let mut call = call.clone();
    *call.scratch_mut() = Lent::junk(length, random);
    call
}

/// Faults of each condition that the call tests, in the order of their numbers.
fn faults<C: Call>() -> Vec<(u32, Fault<C>)> {
    let mut faults: Vec<(u32, Fault<C>)> = vec![
        (1, |c, _| NETWORK_FAULTS[0](c.network_mut())),
        (2, |c, _| NETWORK_FAULTS[1](c.network_mut())),
        (3, |c, _| NETWORK_FAULTS[2](c.network_mut())),
        (4, |c, _| NETWORK_FAULTS[3](c.network_mut())),
        (5, |c, _| NETWORK_FAULTS[4](c.network_mut())),
    ];
    if C::HAS_SCRATCH {
        faults.push((10, shorten_scratch));
    }
    faults.extend(C::OWN_FAULTS);
    faults.sort_by_key(|fault| fault.0);
    faults
}

/// "Conditions are tried from 1 upward [...]; the first met is returned": tries it on calls of
/// network N.
pub fn assert_lower_numbers_first<C: Call>() {
    let mut random = Random::new(3);
    let network = network_n();
    let pairs = AllPairs::of(network.lend());
    for _ in 0..200 {
        let base = C::random(&network, &pairs, &mut random);
        assert_order(&base, &faults(), &mut random, compare);
    }
}

const ROUNDS: u64 = 10_000;
const CALLS_OF_A_NETWORK: u32 = 8;
pub const LEAST_OF_EACH: usize = 2_000;

/// A call with up to two faults of its own and up to two of the network.
fn faulty<C: Call>(network: &OwnedNetwork, pairs: &AllPairs, random: &mut Random) -> C {
    let mut call = C::random(network, pairs, random);
    let behind_network = &faults()[NETWORK_FAULTS.len()..];
    for _ in 0..random.below(3) {
        random.pick(behind_network).1(&mut call, random);
    }
    let times = random.pick(&[0, 0, 1, 2]);
    damage(call.network_mut(), times, random);
    call.mend();
    call
}

/// Counts scratch of just the least length, and longer.
fn tally_scratch<C: Call>(call: &C, tally: &mut Tally) {
    let (least, (_, scratch)) = (call.least_scratch(), call.arrays()[0]);
    tally.add_if(scratch.len() == least, "scratch of the least length");
    tally.add_if(scratch.len() > least, "longer scratch");
}

/// Counts nodes with several lockers, and with the most.
fn tally_lockers<C: Call>(call: &C, tally: &mut Tally) {
    let several = call.points().iter().any(|&lockers| lockers > 1);
    tally.add_if(several, "several lockers on a node");
    tally.add_if(call.points().contains(&15), "15 lockers on a node");
}

/// Tries accepted and faulty calls of one random network.
fn try_network<C: Call>(seed: u64, tally: &mut Tally) {
    let mut random = Random::new(seed);
    let network = random_network(&mut random);
    let pairs = AllPairs::of(network.lend());
    for _ in 0..CALLS_OF_A_NETWORK {
        let call = C::random(&network, &pairs, &mut random);
        if C::HAS_SCRATCH {
            tally_scratch(&call, tally);
        }
        tally_lockers(&call, tally);
        call.tally(tally, &pairs);
        let outcome = call.accepted_by(&pairs);
        assert_outcome(call, &outcome);
        tally.add_number(0);
    }
    for _ in 0..CALLS_OF_A_NETWORK {
        tally.add_number(compare(faulty::<C>(&network, &pairs, &mut random)));
    }
}

/// Compares calls of random networks, valid and damaged, with the plain calculation, and sees that
/// each of the numbers and each of the named things came often enough.
pub fn assert_random_calls<C: Call>(numbers: &[u32], names: &[&str]) -> Tally {
    let mut tally = Tally::default();
    for seed in 0..ROUNDS {
        try_network::<C>(seed, &mut tally);
    }
    tally.print();
    tally.assert_numbers(LEAST_OF_EACH, numbers);
    let of_scratch: &[&str] = match C::HAS_SCRATCH {
        true => &["scratch of the least length", "longer scratch"],
        false => &[],
    };
    let of_lockers: &[&str] = match C::HAS_POINTS {
        true => &["several lockers on a node", "15 lockers on a node"],
        false => &[],
    };
    for name in [names, of_scratch, of_lockers].concat() {
        tally.assert_at_least(LEAST_OF_EACH, name);
    }
    tally
}
