//! A TickSkip forgets the client: readings worked out by hand, and what is counted of them.

use super::Clients;
use super::Skips;
use crate::expected::expected;
use crate::records::bytes;

fn input(digits: &str) -> Vec<u8> {
    let digits: String = digits.split(' ').collect();
    bytes(&digits).expect("hex digits")
}

fn prints(digits: &str, wanted: &[&str]) {
    let text = expected(&input(digits)).text;
    let lines: Vec<&str> = text.lines().collect();
    assert_eq!(lines, wanted, "{digits}");
}

fn counts(digits: &str, inside: [u64; 3], outside: [u64; 3]) {
    let clients = |[lower, equal, higher]: [u64; 3]| Clients {
        lower,
        equal,
        higher,
    };
    let mut skips = Skips::default();
    skips.add(&input(digits));
    let wanted = Skips {
        inside: clients(inside),
        outside: clients(outside),
    };
    assert_eq!(skips, wanted, "{digits}");
}

#[test]
fn lower_client() {
    let wanted = [
        "start 0",
        "new 5 0 0",
        "end 0",
        "start 1",
        "new 2 0 0",
        "end 1",
        "finish",
    ];
    prints("01 42 05 00 00 41 00 42 02 00 00 40", &wanted);
}

#[test]
fn equal_client() {
    let begun = ["start 0", "new 0 0 0", "end 0", "start 1"];
    prints(
        "01 42 00 00 00 41 00 00",
        &[&begun[..], &["refused 3"]].concat(),
    );
    prints(
        "01 42 00 00 00 41 00 43 00 40",
        &[&begun[..], &["old 0 0 0", "end 1", "finish"]].concat(),
    );
}

/// The second TickSkip starts tick 3.
#[test]
fn two_skips() {
    let wanted = [
        "start 0",
        "new 5 0 0",
        "end 0",
        "start 3",
        "change 5 1 1 0 0",
        "end 3",
        "start 4",
        "old 5 1 1",
        "end 4",
        "finish",
    ];
    prints("02 42 05 00 00 41 00 41 01 05 01 01 43 05 40", &wanted);
}

/// A client that doesn't rise still ends the tick, and what is remembered behind a skip counts.
#[test]
fn without_a_skip() {
    let wanted = [
        "start 0",
        "new 5 0 0",
        "end 0",
        "start 1",
        "new 2 0 0",
        "end 1",
        "start 2",
        "old 2 0 0",
        "end 2",
        "finish",
    ];
    prints("01 42 05 00 00 41 00 42 02 00 00 43 02 40", &wanted);
}

#[test]
fn counted() {
    counts("", [0, 0, 0], [0, 0, 0]);
    counts("03 40", [0, 0, 0], [0, 0, 0]);
    // no player before, no skip between
    counts("01 41 00 42 05 00 00 05 00 00 40", [0, 0, 0], [0, 0, 0]);
    counts("01 42 05 00 00 41 00 42 02 00 00 40", [1, 0, 0], [0, 0, 0]);
    counts(
        "02 42 05 00 00 41 00 41 00 05 01 01 40",
        [0, 1, 0],
        [0, 1, 0],
    );
    // a Join starts the tick that the second one ends
    counts(
        "01 42 05 00 00 41 00 47 00 41 00 42 06 00 00 40",
        [0, 0, 2],
        [0, 0, 0],
    );
    // the second player is refused 13, and isn't read
    counts("01 42 05 00 00 41 00 42 05 00 00 40", [0, 0, 0], [0, 0, 0]);
}
