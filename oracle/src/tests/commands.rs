//! The command language.

use super::answers;
use super::check;
use crate::rules::Rules;

/// Checks what an input prints, byte for byte.
fn check_bytes(input: &[u8], output: &str) {
    let printed = answers(Rules::REPAIRED, input);
    assert_eq!(printed, output, "for {}", input.escape_ascii());
}

#[test]
fn ends_of_lines() {
    check_bytes(b"", "");
    check_bytes(b"\n", "R 11\n");
    check_bytes(b"T", "E 0\n");
    check_bytes(b"T\n", "E 0\n");
    check_bytes(b"T\n\n", "E 0\nR 11\n");
    check_bytes(b"T\r\n", "R 11\n");
}

#[test]
fn lines_that_cannot_be_read() {
    let lines =
        "t|X|T | T|T 1|TT|L|L |L  1|L 1 |L 1 2|L +1|L -|L --1|L 1-|L 1.0|L 0x1|L\t1|L 1\0|\0|\
                 L1|l 1|J 1 2 3|J 1 2 3 4 5|U 1 2|U 1 2 3 4|P|P 1 2|T\r|L \u{661}|L 2147483648|\
                 L -2147483649|L 00000000001|L -00000000001|L 9999999999";
    for line in lines.split('|') {
        check_bytes(line.as_bytes(), "R 11\n");
    }
    check_bytes(b"L \xff\nT\xff\n", "R 11\nR 11\n");
}

#[test]
fn lines_over_80_bytes() {
    for length in [49, 50, 79, 80, 81, 1000] {
        check_bytes(
            &[b"T\n".as_slice(), &vec![b'0'; length], b"\nT"].concat(),
            "E 0\nR 11\nE 0\n",
        );
    }
    let longest = "J -1000000000 -1000000000 -0000000001 -0000000001";
    assert_eq!(longest.len(), 49);
    check(&format!("{longest}; L 0000000000"), "R 5");
}

#[test]
fn numbers() {
    check(
        "L -0; L 0000000000; L 0000000001; L -0000000000",
        "F; F; F; F",
    );
    check(
        "L 2147483647; L -2147483648; L 1000000001; L -1",
        "R 2; R 2; R 2; R 2",
    );
    check("U -2147483648 0 0; P -1; P 2147483647", "R 7; R 7; R 7");
}

#[test]
fn list_of_jobs() {
    let jobs = |count| "J 0 0 1 1; ".repeat(count);
    check(
        &format!("{}L 32; T", jobs(32)),
        &format!("F; 0 0 32{}; E 1", ids(32)),
    );
    check(
        &format!("{}L 32; T", jobs(34)),
        &format!("R 1; R 1; F; 0 0 32{}; E 1", ids(32)),
    );
    check("J 0 0 1 1; L -1; L 1; T", "R 2; F; E 0");
    check("J 0 0 1 1; L x; L 1; T", "R 11; F; 0 0 1 0; E 1");
    check("J 5 4 1 1; J 0 0 1 1; L 1; T", "R 4; E 0");
}

/// The first ids, each after a space.
fn ids(count: usize) -> String {
    (0..count).map(|id| format!(" {id}")).collect()
}

#[test]
fn fresh_plan() {
    check("T; P 0; U 0 0 0; U -1 0 0", "E 0; R 7; R 7; R 7");
}
