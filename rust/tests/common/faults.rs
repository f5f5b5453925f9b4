//! Faults of calls. Each makes a call that is accepted meet one condition of document 01's table of
//! refusals.

use super::network::OwnedNetwork;
use super::random::Random;

/// Puts a fault into the inputs of a call.
pub type Fault<Call> = fn(&mut Call, &mut Random);

/// A fault of the network for each of the conditions 1 to 5, in this order. The network has a road
/// of node 0.
pub const NETWORK_FAULTS: [fn(&mut OwnedNetwork); 5] = [
    |g| g.starts.truncate(1),
    |g| *g.starts.last_mut().unwrap() += 1,
    |g| g.neighbours[0] = u32::MAX,
    |g| g.weights[0] = 0,
    |g| g.weights[0] = if g.weights[0] == 1 { 2 } else { 1 },
];

/// "Conditions are tried from 1 upward [...]; the first met is returned": sees that each fault
/// alone has its number, that of two the lower is returned, and that all from one on give that one.
///
/// The faults stand in the order of their numbers. The function `number_of` runs a call and returns
/// its number.
pub fn assert_order<Call: Clone>(
    base: &Call,
    faults: &[(u32, Fault<Call>)],
    random: &mut Random,
    number_of: impl Fn(Call) -> u32,
) {
    assert!(faults.is_sorted_by_key(|fault| fault.0));
    assert_eq!(number_of(base.clone()), 0);
    for (at, &(number, _)) in faults.iter().enumerate() {
        let mut assert_number =
            |faults: &[_]| assert_eq!(number_of(with_faults(base, faults, random)), number);
        assert_number(&faults[at..=at]);
        for &other in &faults[at + 1..] {
            assert_number(&[faults[at], other]);
        }
        assert_number(&faults[at..]);
    }
}

/// Puts the faults in, the last one first: a fault of a lower number stays whatever stands before.
fn with_faults<Call: Clone>(
    base: &Call,
    faults: &[(u32, Fault<Call>)],
    random: &mut Random,
) -> Call {
    let mut call = base.clone();
    for (_, fault) in faults.iter().rev() {
        fault(&mut call, random);
    }
    call
}
