//! Lists worked out by hand from docs/FORMAT.md.

use super::ladder;
use crate::records::bytes;

/// Kind -11 and the identifier of PlayerFinish; a payload's length and its two numbers follow.
const FINISH: &str = "4a 68943c01 23483e01 94903f27 f8269d94";
const TEAM_FINISH: &str = "4a 9588b9af 3fdc3760 804382de eee317a5";
const PLAYER_TEAM: &str = "4a a111c04e 1ea838e0 90b1d7f9 93ca0da9";

fn input(parts: &[&str]) -> Vec<u8> {
    let digits: String = parts.concat().split(' ').collect();
    bytes(&digits).expect("hex digits")
}

fn lists(parts: &[&str], wanted: &str) {
    assert_eq!(ladder(&input(parts)).text, wanted, "{parts:?}");
}

#[test]
fn no_version() {
    lists(&[""], "others 0\nrefused 2\n");
    lists(&["00"], "others 0\nrefused 2\n");
    lists(&["03 40"], "others 0\nrefused 2\n");
    lists(&["03", FINISH, "02 05 0a 40"], "others 0\nrefused 2\n");
}

#[test]
fn no_finish() {
    lists(&["02"], "others 0\nrefused 3\n");
    lists(&["01 40"], "others 0\nfinish\n");
    lists(&["01 41 02 42 00 0a 14 00 01 40 40"], "others 0\nfinish\n");
    // extensions of the same shape
    lists(
        &["02", TEAM_FINISH, "02 05 0a", PLAYER_TEAM, "02 05 0a 40"],
        "others 0\nfinish\n",
    );
    // version 1 has no extensions
    lists(&["01", FINISH, "02 05 0a 40"], "others 0\nrefused 4\n");
}

#[test]
fn one_finish() {
    lists(
        &["02", FINISH, "02 05 0a 40"],
        "row 5 10 0\nothers 0\nfinish\n",
    );
    // outside a tick a TickSkip starts the tick: 0 + 1 + 2
    lists(
        &["02 41 02", FINISH, "02 05 0a 40"],
        "row 5 10 3\nothers 0\nfinish\n",
    );
    // inside it ends the tick; the next record starts the new one
    lists(
        &["02 47 00 41 02", FINISH, "02 05 0a 40"],
        "row 5 10 3\nothers 0\nfinish\n",
    );
    // a client that isn't above the remembered one ends the tick
    lists(
        &["02 42 07 01 01 07 00 00", FINISH, "02 05 0a 40"],
        "row 5 10 1\nothers 0\nfinish\n",
    );
    // an extension's client doesn't
    lists(
        &["02 42 07 01 01", FINISH, "02 05 0a 42 08 01 01 40"],
        "row 5 10 0\nothers 0\nfinish\n",
    );
    // the largest tick: 0 + 1 + 2147483646
    lists(
        &["02 41 be ff ff ff 0f", FINISH, "02 05 0a 40"],
        "row 5 10 2147483647\nothers 0\nfinish\n",
    );
}

/// The lowest time; of equal ones the earliest record.
#[test]
fn lowest() {
    // in ticks 0, 1 and 2
    let of_three = |[a, b, c]: [&str; 3], wanted: &str| {
        let parts = [
            "02", FINISH, a, "41 00", FINISH, b, "41 00", FINISH, c, "40",
        ];
        lists(&parts, wanted);
    };
    of_three(
        ["02 03 0a", "02 03 09", "02 03 0b"],
        "row 3 9 1\nothers 0\nfinish\n",
    );
    of_three(
        ["02 03 0a", "02 03 09", "02 03 09"],
        "row 3 9 1\nothers 0\nfinish\n",
    );
    of_three(
        ["02 03 0a", "02 03 0a", "02 03 0a"],
        "row 3 10 0\nothers 0\nfinish\n",
    );
    of_three(
        ["02 03 0a", "02 03 0b", "02 03 08"],
        "row 3 8 2\nothers 0\nfinish\n",
    );
    // signed: -1 is 40, -64 is 7f, the ends have five bytes
    of_three(
        ["02 03 00", "02 03 40", "02 03 7f"],
        "row 3 -64 2\nothers 0\nfinish\n",
    );
    of_three(
        ["06 03 ff ff ff ff 0f", "06 03 bf ff ff ff 0f", "02 03 00"],
        "row 3 -2147483648 0\nothers 0\nfinish\n",
    );
    of_three(
        ["06 03 bf ff ff ff 0f", "02 04 3f", "03 05 80 01"],
        "row 4 63 1\nrow 5 64 2\nrow 3 2147483647 0\nothers 0\nfinish\n",
    );
}

#[test]
fn clients() {
    // 127 is bf 01, 128 is 80 02, -1 is 40
    lists(
        &["02", FINISH, "03 bf 01 05", FINISH, "03 80 02 04 40"],
        "row 127 5 0\nothers 1\nfinish\n",
    );
    lists(
        &["02", FINISH, "02 40 05", FINISH, "02 00 06 40"],
        "row 0 6 0\nothers 1\nfinish\n",
    );
    lists(
        &[
            "02",
            FINISH,
            "06 ff ff ff ff 0f 05",
            FINISH,
            "06 bf ff ff ff 0f 05",
            FINISH,
            "06 bf ff ff ff 0f 05 40",
        ],
        "others 3\nfinish\n",
    );
}

#[test]
fn rising_times() {
    // clients 9, 2, 4 and 1 in one tick; equal times in the order of the clients
    lists(
        &[
            "02",
            FINISH,
            "02 09 07",
            FINISH,
            "02 02 07",
            FINISH,
            "02 04 41",
            FINISH,
            "02 01 08 40",
        ],
        "row 4 -2 0\nrow 2 7 0\nrow 9 7 0\nrow 1 8 0\nothers 0\nfinish\n",
    );
}

#[test]
fn payloads() {
    // spare bytes at the end, and an overlong time
    lists(
        &["02", FINISH, "05 05 0a 40 00 40 40"],
        "row 5 10 0\nothers 0\nfinish\n",
    );
    lists(
        &["02", FINISH, "03 05 80 00 40"],
        "row 5 0 0\nothers 0\nfinish\n",
    );
    // a payload that runs out
    lists(
        &["02", FINISH, "02 05 0a", FINISH, "01 05 0a 40"],
        "row 5 10 0\nothers 0\nrefused 3\n",
    );
    // a negative length, and one of which a byte is missing
    lists(&["02", FINISH, "40"], "others 0\nrefused 21\n");
    lists(&["02", FINISH, "c0"], "others 0\nrefused 3\n");
}

/// What comes before the refusal is listed, what comes behind it isn't.
#[test]
fn refused() {
    let before = [FINISH, "02 05 0a", FINISH, "02 40 0a"].concat();
    let behind = [FINISH, "02 05 09", FINISH, "02 06 09 40"].concat();
    for (refused, number) in [
        ("4b", 4),
        ("41 40", 5),
        ("49 00 00 61 00 40", 6),
        (
            "49 00 00 61 00 11 00 00 00 00 00 00 00 00 00 00 00 00 00 00 00 00 00",
            7,
        ),
        ("42 40 00 00", 8),
        ("42 80 02 00 00", 10),
        ("41 bf ff ff ff 0f", 12),
        ("42 03 00 00 42 03 00 00", 13),
        ("03 00 00", 14),
        ("43 03", 15),
        ("44 03 00 00 00 00 00 00 00 00 00 00", 16),
        ("46 00 40", 21),
        (&[FINISH, "40"].concat(), 21),
    ] {
        lists(
            &["02", &before, refused, &behind],
            &format!("row 5 10 0\nothers 1\nrefused {number}\n"),
        );
    }
    lists(&["02", &before], "row 5 10 0\nothers 1\nrefused 3\n");
    lists(
        &["02", &before, "40", &behind],
        "row 5 10 0\nothers 1\nfinish\n",
    );
}

/// A message of more bytes than a window has; a negative length, which waits for none.
#[test]
fn too_long() {
    for (length, last) in [("b0 c5 08", "too long"), ("40", "refused 21")] {
        let mut input = input(&["02", FINISH, "02 05 0a 46 00", length]);
        input.extend([0x40; 70000]);
        let wanted = format!("row 5 10 0\nothers 0\n{last}\n");
        assert_eq!(ladder(&input).text, wanted);
    }
}
