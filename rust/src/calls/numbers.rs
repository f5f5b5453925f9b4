//! From the number of a call to a `Result`, and to words.

use crate::Refusal;

/// Turns the number of a call into a `Result`, so that `?` hands a refusal on.
///
/// For the calls that answer a number alone, such as [`distances`](super::distances()) and
/// [`network_check`](super::network_check); the other answers have a method of this name.
///
/// ```
/// use overlap::{calls::accepted, Refusal};
///
/// assert_eq!(accepted(0), Ok(()));
/// assert_eq!(accepted(7), Err(Refusal::Node));
/// ```
///
/// # Errors
///
/// The refusal, where the number is not 0.
///
/// # Panics
///
/// Where no call returns such a number: [`Refusal::ALL`] has those that they return.
pub fn accepted(number: u32) -> Result<(), Refusal> {
    if number == 0 {
        return Ok(());
    }
    let refusal = Refusal::from_number(number);
    Err(refusal.unwrap_or_else(|| panic!("no call returns the number {number}")))
}

/// The condition that a number stands for, as [`Refusal::condition`] words it.
///
/// 0 stands for an accepted call. A number that is none of [`Refusal::ALL`] no call returns.
///
/// ```
/// use overlap::calls::meaning;
///
/// assert_eq!(meaning(0), "accepted");
/// assert_eq!(meaning(4), "a weight is 0 or above 65,535");
/// assert_eq!(meaning(14), "route: the list is empty or two nodes in sequence have no road");
/// assert_eq!(meaning(15), "no call returns this number");
/// ```
#[must_use]
pub fn meaning(number: u32) -> &'static str {
    match (number, Refusal::from_number(number)) {
        (0, _) => "accepted",
        (_, Some(refusal)) => refusal.condition(),
        (_, None) => "no call returns this number",
    }
}
