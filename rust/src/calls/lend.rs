//! How arrays are lent to a call.

/// A call of the engine in which each array is written once, in the order of `overlap.h`.
///
/// `&array` is lent for reading and `&mut array` for writing: both pass as a pointer and a length.
/// `..network` passes as its three arrays. All else passes as it is. The declaration in `ffi` checks
/// the number and the types of what comes out, and the caller writes the `unsafe`.
macro_rules! lend {
    ($($call:ident)::+($($lent:tt)*)) => {
        lend!(@ $($call)::+, [] $($lent)*)
    };
    (@ $call:path, [$($passed:expr,)*]) => {
        $call($($passed),*)
    };
    (@ $call:path, [$($passed:expr,)*] ..$network:ident $(, $($rest:tt)*)?) => {
        lend!(
            @ $call,
            [$($passed,)*]
            &$network.starts, &$network.neighbours, &$network.weights, $($($rest)*)?
        )
    };
    (@ $call:path, [$($passed:expr,)*] &mut $array:expr $(, $($rest:tt)*)?) => {
        lend!(@ $call, [$($passed,)* $array.as_mut_ptr(), $array.len(),] $($($rest)*)?)
    };
    (@ $call:path, [$($passed:expr,)*] &$array:expr $(, $($rest:tt)*)?) => {
        lend!(@ $call, [$($passed,)* $array.as_ptr(), $array.len(),] $($($rest)*)?)
    };
    (@ $call:path, [$($passed:expr,)*] $plain:expr $(, $($rest:tt)*)?) => {
        lend!(@ $call, [$($passed,)* $plain,] $($($rest)*)?)
    };
}

pub(super) use lend;
