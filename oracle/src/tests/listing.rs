//! The listing of document 01.

use super::check_under;
use super::stays_plain;
use crate::rules::Rules;

const INPUT: &str = "J 0 0 4 2; J 2 2 4 3; J 9 12 3 1; L 5; T; U 2 9 11; U 1 3 3; U 2 3 3; \
                     U 2 6 6; T";
const OUTPUT: &str = "F; 0 1 2 1; 2 3 5 1 0; 4 5 3 0; E 3; F; F; O 3 3 6; F; 2 2 3 0; 3 3 5 1 0; \
                      4 5 5 0 1; 6 6 3 1 2; 7 8 1 2; E 5";

#[test]
fn the_rust_prints_the_listing() {
    check_under(Rules::PLAIN, INPUT, OUTPUT);
    assert!(stays_plain(INPUT));
}

#[test]
fn the_repaired_rust_prints_the_listing() {
    check_under(Rules::REPAIRED, INPUT, OUTPUT);
}
