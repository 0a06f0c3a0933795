//! Rewinds worked out by hand.

use super::Past;
use crate::jumps::Jumps;
use crate::records::bytes;

const TEN: &str = "01 02 03 04 05 06 07 08 09 0a";
const ONES: &str = "01 40 01 40 01 40 01 40 01 40";
const ZEROS: &str = "00 00 00 00 00 00 00 00 00 00";
/// Kind -11 and the identifier of PlayerTeam; a payload's length, a client and a team follow.
const TEAM: &str = "4a a111c04e 1ea838e0 90b1d7f9 93ca0da9";

fn input(parts: &[&str]) -> Vec<u8> {
    let digits: String = parts.concat().split(' ').collect();
    bytes(&digits).expect("hex digits")
}

/// What each of the ticks answers, one behind the other.
fn rewinds(parts: &[&str], limit: Option<u64>, ticks: &[i32], wanted: &str) {
    let jumps = Jumps {
        ticks: ticks.to_vec(),
        limit,
    };
    assert_eq!(jumps.text(&input(parts)), wanted, "{parts:?} {limit:?}");
}

/// Whether each of the ticks 0, 1, .. is on the reel, in a reading that isn't refused.
fn kept(input: &[u8], limit: Option<u64>, wanted: &[bool]) {
    let past = Past::of(input, limit);
    for (tick, wanted) in (0..).zip(wanted) {
        let text = past.rewound(tick).text();
        let is_board = text.starts_with(&format!("board {tick}\n"));
        assert_eq!(is_board, *wanted, "tick {tick} {limit:?}");
        assert!(is_board || text == "refused 20\n", "tick {tick} {limit:?}");
    }
}

#[test]
fn no_version() {
    for (parts, limit) in [("", None), ("", Some(0)), ("00", None), ("03 40", Some(1))] {
        rewinds(&[parts], limit, &[0, 7], "refused 2\nrefused 2\n");
    }
}

#[test]
fn no_events() {
    // the first call is refused 3, unless none is made
    rewinds(&["01"], None, &[0], "refused 18\n");
    rewinds(&["01"], Some(1), &[0], "refused 18\n");
    rewinds(&["01"], Some(0), &[0], "refused 20\n");
    rewinds(&["02 40"], None, &[0, i32::MAX], "refused 20\nrefused 20\n");
    rewinds(&["02 47 00 40"], Some(0), &[0], "refused 20\n");
    rewinds(&["02 47 00 40"], None, &[], "");
}

/// start 3, new 0 10 20, end 3, start 4, change 0 11 19 10 20, end 4
#[test]
fn first_listing() {
    let body = ["01 41 02 42 00 0a 14 00 01 40 40"];
    let (third, fourth) = ("board 3\nended\n", "board 4\nplayer 0 10 20\nended\n");
    let gone = "refused 20\n";
    for (limit, wanted) in [
        (Some(0), [gone, gone]),
        (Some(1), [third, gone]),
        (Some(3), [third, gone]),
        (Some(4), [third, fourth]),
        (Some(6), [third, fourth]),
        (Some(7), [third, fourth]),
        (None, [third, fourth]),
    ] {
        rewinds(&body, limit, &[3, 4], &wanted.concat());
    }
    rewinds(&body, None, &[0, 2, 5, i32::MAX], &gone.repeat(4));
}

/// start 0, new 5 0 0, end 0, start 1, new 2 0 0, end 1
#[test]
fn second_listing() {
    rewinds(
        &["01 42 05 00 00 41 00 42 02 00 00 40"],
        None,
        &[1, 0, 2],
        "board 1\nplayer 5 0 0\nended\nboard 0\nended\nrefused 20\n",
    );
}

/// Players first, then inputs, each rising by client; PlayerOld leaves the inputs.
#[test]
fn boards() {
    rewinds(
        &[
            "01 42 02 05 06 42 bf 01 07 08 45 09",
            TEN,
            "45 02",
            ZEROS,
            "43 02 44 09",
            ONES,
            "42 02 40 40 40",
        ],
        None,
        &[0, 1, 2],
        "board 0\nended\n\
         board 1\nplayer 2 5 6\nplayer 127 7 8\ninput 2 0 0 0 0 0 0 0 0 0 0\ninput 9 1 2 3 4 5 6 7 8 9 10\nended\n\
         board 2\nplayer 127 7 8\ninput 2 0 0 0 0 0 0 0 0 0 0\ninput 9 2 1 4 3 6 5 8 7 10 9\nended\n",
    );
}

/// Teams last, rising by client; each as it was when the tick started. PlayerOld leaves them.
#[test]
fn teams() {
    rewinds(
        &[
            "02 42 02 05 06",
            TEAM,
            "03 bf 01 07",
            TEAM,
            "02 02 00 41 00 43 02",
            TEAM,
            "02 02 40",
            TEAM,
            "02 40 09 45 09",
            TEN,
            "41 00",
            TEAM,
            "03 bf 01 08 41 00",
            TEAM,
            "03 80 02 08 40",
        ],
        None,
        &[0, 1, 2, 3],
        "board 0\nended\n\
         board 1\nplayer 2 5 6\nteam 2 0\nteam 127 7\nended\n\
         board 2\ninput 9 1 2 3 4 5 6 7 8 9 10\nteam 2 -1\nteam 127 7\nended\n\
         board 3\ninput 9 1 2 3 4 5 6 7 8 9 10\nteam 2 -1\nteam 127 8\nended\n",
    );
}

#[test]
fn largest_tick() {
    rewinds(
        &["01 41 bd ff ff ff 0f 42 00 01 02 00 01 01 40"],
        None,
        &[i32::MAX - 1, i32::MAX, 0],
        "board 2147483646\nended\nboard 2147483647\nplayer 0 1 2\nended\nrefused 20\n",
    );
}

/// start 0, new 3 0 0, end 0, start 1, the record of a Join; then the refusal, or no call.
#[test]
fn refused() {
    let strings = "00 ".repeat(17);
    let arguments = ["49 00 00 61 00 11", &strings].concat();
    for refused in [
        "4b",
        "41 40",
        "49 00 00 61 00 40",
        &arguments,
        "42 40 00 00",
        "42 80 02 00 00",
        "45 80 02 01 02 03 04 05 06 07 08 09 0a",
        "41 bf ff ff ff 0f",
        "42 03 00 00",
        "04 00 00",
        "43 04",
        "44 03 00 00 00 00 00 00 00 00 00 00",
        "46 00 40",
        "",
    ] {
        let body = ["02 42 03 00 00 41 00 47 00", refused];
        let wanted = "refused 18\n".repeat(3);
        rewinds(&body, None, &[0, 1, 7], &wanted);
        rewinds(
            &body,
            Some(5),
            &[0, 1, 7],
            "board 0\nended\nboard 1\nplayer 3 0 0\nended\nrefused 20\n",
        );
    }
}

/// 512 events are kept, the one that is asked for among them.
#[test]
fn reel() {
    // start 0, the Joins, end 0
    let joins = |count: usize| [&[0x01][..], &[0x47, 0x00].repeat(count), &[0x40]].concat();
    kept(&joins(509), None, &[true, false]);
    kept(&joins(510), None, &[true, false]);
    kept(&joins(511), None, &[false, false]);
    kept(&joins(600), Some(511), &[true, false]);
    kept(&joins(600), Some(512), &[true, false]);
    kept(&joins(600), Some(513), &[false, false]);
    // start 1, end 1, start 3, end 3, ..
    let skips = |count: usize| [&[0x01][..], &[0x41, 0x00].repeat(count), &[0x40]].concat();
    kept(&skips(512), None, &[false, true, false, true, false, true]);
    kept(&skips(514), None, &[false, false, false, true, false, true]);
    let past = Past::of(&skips(600), Some(515));
    let (gone, kept) = past.ticks();
    assert_eq!((gone, kept[0], kept.len()), (vec![1, 3], 5, 256));
}

/// The board of the oldest row is whole: what was done before the reel began is on it.
#[test]
fn oldest_row() {
    // start 0, input 0, end 0, start 1, input 0, Joins, end 1
    let body = |count: usize| {
        let mut body = input(&["01 45 00", TEN, "41 00 44 00", ONES]);
        body.extend([0x47, 0x00].repeat(count));
        body.push(0x40);
        body
    };
    let wanted = "board 1\ninput 0 1 2 3 4 5 6 7 8 9 10\nended\n";
    let past = Past::of(&body(509), None);
    assert_eq!(past.rewound(1).text(), wanted);
    assert_eq!(past.rewound(0).text(), "refused 20\n");
    assert_eq!(Past::of(&body(510), None).rewound(1).text(), "refused 20\n");
}

/// A full window that answers more leaves the reader open; one byte less is refused 3, and a negative length 21.
#[test]
fn too_long() {
    for (length, filling, wanted) in [
        ("b0 c5 08", 65531, "board 0\nended\nrefused 20\n"),
        ("b0 c5 08", 65530, "refused 18\nrefused 18\n"),
        ("40", 65533, "refused 18\nrefused 18\n"),
    ] {
        let mut body = input(&["02 42 00 01 01 46 00", length]);
        body.extend([0x40].repeat(filling));
        let past = Past::of(&body, None);
        let text = [past.rewound(0).text(), past.rewound(1).text()].concat();
        assert_eq!(text, wanted);
    }
}
