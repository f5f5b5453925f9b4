//! The example `network_n` prints what document 01 says, as the C program does.

#[allow(dead_code)] // its main function
#[path = "../examples/network_n.rs"]
mod network_n;

#[test]
fn the_output_is_the_expected_one() {
    let mut out = Vec::new();
    network_n::print(&mut out).unwrap();
    let expected = include_str!("../../c/network_n.expected");
    assert_eq!(String::from_utf8(out).unwrap(), expected);
}
