//! Teams worked out by hand.

use crate::framed::When;
use crate::lookups::lookups;
use crate::records::bytes;
use crate::run::Answer;
use crate::run::Pace;
use crate::run::Run;

/// Kind -11 and the identifier of PlayerTeam; a payload's length, a client and a team follow.
const TEAM: &str = "4a a111c04e 1ea838e0 90b1d7f9 93ca0da9";
const FINISH: &str = "4a 68943c01 23483e01 94903f27 f8269d94";
const TEAM_FINISH: &str = "4a 9588b9af 3fdc3760 804382de eee317a5";
const SWAP: &str = "4a 5de9b633 49cf3e99 9a25d4a7 8e9717d7";
const TEN: &str = "01 02 03 04 05 06 07 08 09 0a";

fn input(parts: &[&str]) -> Vec<u8> {
    let digits: String = parts.concat().split(' ').collect();
    bytes(&digits).expect("hex digits")
}

/// The teams of an input that is read to its end, by client.
fn leaves(parts: &[&str], wanted: &[(i32, i32)]) {
    let input = input(parts);
    let mut run = Run::new(input[0], &input[1..], Pace::Whole).expect("a version");
    while let Answer::Event(_) = run.call() {}
    assert_eq!(run.teams().list(), wanted, "{parts:?}");
}

#[test]
fn nobody() {
    leaves(&["02 40"], &[]);
    leaves(&["02 42 05 00 00 45 05", TEN, "47 05 40"], &[]);
    // extensions of the same shape
    leaves(&["02", FINISH, "02 05 0a", SWAP, "02 05 0a 40"], &[]);
    leaves(&["02", TEAM_FINISH, "02 05 0a 40"], &[]);
    // version 1 has no extensions
    leaves(&["01", TEAM, "02 05 0a 40"], &[]);
}

/// A team of 0 isn't the same as none.
#[test]
fn one() {
    leaves(&["02", TEAM, "02 00 00 40"], &[(0, 0)]);
    leaves(&["02", TEAM, "02 05 0a 40"], &[(5, 10)]);
    leaves(&["02", TEAM, "03 bf 01 40 40"], &[(127, -1)]);
    for (team, number) in [
        ("ff ff ff ff 0f", i32::MIN),
        ("bf ff ff ff 0f", i32::MAX),
        // forms that are longer than they need to be
        ("81 80 80 80 00", 1),
        ("c0 80 80 80 80", -1),
    ] {
        leaves(&["02", TEAM, "06 05", team, "40"], &[(5, number)]);
    }
    // in a tick that it starts, that a TickSkip has started, and behind players
    leaves(&["02 41 02", TEAM, "02 05 0a 40"], &[(5, 10)]);
    leaves(&["02 47 00 41 02", TEAM, "02 05 0a 40"], &[(5, 10)]);
    leaves(&["02 42 07 01 01", TEAM, "02 05 0a 40"], &[(5, 10)]);
    // bytes that are left over in the payload
    leaves(&["02", TEAM, "05 05 0a 40 80 4b 40"], &[(5, 10)]);
}

#[test]
fn other_clients() {
    for client in [
        "40",
        "80 02",
        "81 02",
        "bf 03",
        "80 04",
        "ff ff ff ff 0f",
        "bf ff ff ff 0f",
    ] {
        let length = format!("{:02x}", 2 + client.len() / 3);
        leaves(&["02", TEAM, &length, client, "0a 40"], &[]);
        leaves(
            &[
                "02",
                TEAM,
                "02 00 01",
                TEAM,
                "03 bf 01 02",
                TEAM,
                &length,
                client,
                "0a 40",
            ],
            &[(0, 1), (127, 2)],
        );
    }
}

#[test]
fn the_last_stands() {
    leaves(&["02", TEAM, "02 05 01", TEAM, "02 05 02 40"], &[(5, 2)]);
    leaves(&["02", TEAM, "02 05 02", TEAM, "02 05 00 40"], &[(5, 0)]);
    leaves(
        &["02", TEAM, "02 05 01 41 00", TEAM, "02 05 02 41 00 40"],
        &[(5, 2)],
    );
    leaves(
        &[
            "02",
            TEAM,
            "02 07 01",
            TEAM,
            "02 05 02",
            TEAM,
            "02 07 03",
            TEAM,
            "02 06 02 40",
        ],
        &[(5, 2), (6, 2), (7, 3)],
    );
}

/// Players that come, move and go, inputs, joins and drops leave the teams.
#[test]
fn nothing_else() {
    let team = ["02", TEAM, "02 05 0a"].concat();
    for records in [
        "42 05 01 01",
        "42 05 01 01 05 01 01 43 05",
        "42 05 01 01 43 05 42 05 02 02",
        "45 05 01 02 03 04 05 06 07 08 09 0a",
        "47 05 48 05 00 47 05",
        "41 00 41 00",
    ] {
        leaves(&[&team, records, "40"], &[(5, 10)]);
    }
    leaves(
        &[
            &team,
            FINISH,
            "02 05 0b",
            TEAM_FINISH,
            "02 0a 0b",
            SWAP,
            "02 05 06 40",
        ],
        &[(5, 10)],
    );
}

/// What comes before a refusal stays, what comes behind it isn't read.
#[test]
fn refused() {
    let team = |numbers: &str| [TEAM, numbers].concat();
    for refused in [
        "4b",
        "42 80 02 00 00",
        "43 05",
        "46 00 40",
        // a payload without the team, and one of negative length
        &team("01 05"),
        &team("40"),
    ] {
        let parts = ["02", &team("02 05 0a"), refused, &team("02 05 0b"), "40"];
        let text = lookups(&input(&parts), When::End).text;
        assert!(text.starts_with("refused "), "{refused}");
        assert!(text.contains("\nteam 5 10\ncids "), "{refused}");
    }
    // without its last byte
    leaves(&["02", TEAM, "02 05 0a", TEAM, "02 05"], &[(5, 10)]);
}

/// Behind the clients' positions and inputs, and before `cids`.
#[test]
fn lines_of_lookups() {
    let body = [
        "02 42 05 01 02",
        TEAM,
        "02 07 40",
        TEAM,
        "03 80 02 09 45 06",
        TEN,
        "43 05",
        TEAM,
        "02 05 03 40",
    ];
    let first = "tick 0\ncids 0\n";
    let player = "tick 0\npos 5 1 2\ncids 6\n";
    let team = "tick 0\npos 5 1 2\nteam 7 -1\ncids 8\n";
    let other = "tick 0\npos 5 1 2\nteam 7 -1\ncids 129\n";
    let inputs = "pos 5 1 2\ninp 6 1 2 3 4 5 6 7 8 9 10\nteam 7 -1\ncids 129\n";
    let gone = "inp 6 1 2 3 4 5 6 7 8 9 10\nteam 7 -1\ncids 129\n";
    let two = "inp 6 1 2 3 4 5 6 7 8 9 10\nteam 5 3\nteam 7 -1\ncids 129\n";
    let wanted = [
        first,
        player,
        team,
        other,
        &format!("tick 0\n{inputs}"),
        &format!("tick -\n{inputs}"),
        &format!("tick 1\n{inputs}"),
        &format!("tick 1\n{gone}"),
        &format!("tick 1\n{two}"),
        &format!("tick -\n{two}"),
    ];
    let last = format!("finish\ntick -\n{two}");
    let each = lookups(&input(&body), When::Each);
    assert_eq!(each.text, wanted.concat() + &last);
    assert_eq!((each.boards, each.teams), (11, 12));
    assert_eq!(lookups(&input(&body), When::End).text, last);
}
