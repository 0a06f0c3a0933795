//! Scripts worked out by hand.

use super::told;
use crate::records::bytes;
use crate::scripts::Script;

/// start 3, new 0 10 20, end 3, start 4, change 0 11 19 10 20, end 4
const FIRST: &str = "01 41 02 42 00 0a 14 00 01 40 40";
const TEN: &str = "01 02 03 04 05 06 07 08 09 0a";
const ONES: &str = "01 40 01 40 01 40 01 40 01 40";
/// Kind -11 and the identifier of PlayerTeam; a payload's length, a client and a team follow.
const TEAM: &str = "4a a111c04e 1ea838e0 90b1d7f9 93ca0da9";

fn input(parts: &[&str]) -> Vec<u8> {
    let digits: String = parts.concat().split(' ').collect();
    bytes(&digits).expect("hex digits")
}

/// What a script tells of an input: steps, each with its lines, without the last line end.
fn tells(input: &[u8], steps: &[(&str, &str)]) {
    let script: Vec<&str> = steps.iter().map(|(step, _)| *step).collect();
    let script = Script::listed(&script.join(",")).expect("steps");
    let lines = steps.iter().filter(|(_, lines)| !lines.is_empty());
    let wanted: String = lines.map(|(_, lines)| format!("{lines}\n")).collect();
    assert_eq!(told(&script, input).text, wanted, "{script}");
}

#[test]
fn no_version() {
    for parts in ["", "00", "03 40"] {
        let script = Script::listed("read:1,start:0:0,look:0:0").expect("steps");
        assert_eq!(told(&script, &input(&[parts])).text, "refused 2\n");
    }
}

/// Before its first start a rewind is blank, and a start that is refused leaves it.
#[test]
fn blank() {
    tells(
        &input(&[FIRST]),
        &[
            ("go:0:0", "refused 20"),
            ("board:1:1", "board -\nrefused 20"),
            ("look:2:0", "tick -\nnowhere\nno inputs\nteam -"),
            ("start:0:3", "refused 20"),
            ("read:1", ""),
            ("start:0:4", "refused 20"),
            ("splits:1:4", "refused 20"),
            ("go:0:7", "refused 20"),
            ("go:1:7", "refused 20"),
        ],
    );
}

#[test]
fn first_listing() {
    tells(
        &input(&[FIRST]),
        &[
            ("read:2", ""),
            ("start:0:3", "started"),
            ("board:0:0", "board 3\nplayer 0 10 20\ngoing"),
            ("read:3", ""),
            ("start:1:3", "started"),
            ("start:2:4", "started"),
            ("look:1:0", "tick 4\nat 11 19\nno inputs\nteam -"),
            ("board:1:1", "board 4\nplayer 0 10 20\ngoing"),
            ("board:1:1", "board -\nplayer 0 10 20\ngoing"),
            ("go:2:0", "going"),
            ("go:2:9", "ended"),
            ("board:2:1", "board 4\nplayer 0 10 20\nended"),
            // finish
            ("read:7", ""),
            ("board:0:0", "board 3\nplayer 0 10 20\ngoing"),
            ("board:0:1", "board 3\nended"),
            ("go:0:0", "ended"),
            ("start:0:3", "started"),
            ("look:0:0", "tick -\nat 11 19\nno inputs\nteam -"),
            ("start:0:5", "refused 20"),
            ("look:0:0", "tick -\nat 11 19\nno inputs\nteam -"),
            ("look:1:0", "tick -\nat 10 20\nno inputs\nteam -"),
            ("look:1:1", "tick -\nnowhere\nno inputs\nteam -"),
            ("look:1:-1", "tick -\nnowhere\nno inputs\nteam -"),
        ],
    );
}

/// start 0, input 9, input 9, new 127 7 8, then a refusal.
#[test]
fn refused_later() {
    tells(
        &input(&["01 45 09", TEN, "44 09", ONES, "42 bf 01 07 08 4b"]),
        &[
            ("read:4", ""),
            ("start:0:0", "started"),
            ("start:1:0", "started"),
            ("read:1", ""),
            ("start:1:0", "refused 18"),
            ("splits:2:0", "refused 18"),
            ("look:0:127", "tick 0\nat 7 8\nno inputs\nteam -"),
            (
                "look:1:9",
                "tick 0\nnowhere\nhas 2 1 4 3 6 5 8 7 10 9\nteam -",
            ),
            ("go:0:2", "going"),
            (
                "look:0:9",
                "tick 0\nnowhere\nhas 1 2 3 4 5 6 7 8 9 10\nteam -",
            ),
            ("board:0:1", "board 0\nended"),
            ("read:9", ""),
            (
                "board:1:0",
                "board 0\nplayer 127 7 8\ninput 9 2 1 4 3 6 5 8 7 10 9\ngoing",
            ),
        ],
    );
}

/// start 0, the teams 5 in 1, 5 in 2 and 127 in -1, end 0, start 1, 5 in 0, 128 in 7: the former teams come back.
#[test]
fn teams() {
    let body = [
        "02",
        TEAM,
        "02 05 01",
        TEAM,
        "02 05 02",
        TEAM,
        "03 bf 01 40 41 00",
        TEAM,
        "02 05 00",
        TEAM,
        "03 80 02 07 4b",
    ];
    tells(
        &input(&body),
        &[
            ("look:0:5", "tick -\nnowhere\nno inputs\nteam -"),
            ("read:8", ""),
            ("start:0:0", "started"),
            ("start:1:1", "started"),
            ("look:0:5", "tick 1\nnowhere\nno inputs\nteam 0"),
            ("look:0:127", "tick 1\nnowhere\nno inputs\nteam -1"),
            ("look:0:128", "tick 1\nnowhere\nno inputs\nteam -"),
            ("look:0:-1", "tick 1\nnowhere\nno inputs\nteam -"),
            ("board:0:1", "board 1\nteam 5 0\nteam 127 -1\ngoing"),
            ("board:0:1", "board 1\nteam 5 2\nteam 127 -1\ngoing"),
            ("board:0:1", "board -\nteam 5 2\nteam 127 -1\ngoing"),
            ("board:0:1", "board 0\nteam 5 2\nteam 127 -1\ngoing"),
            ("board:0:1", "board 0\nteam 5 2\ngoing"),
            ("board:0:1", "board 0\nteam 5 1\ngoing"),
            ("look:0:5", "tick 0\nnowhere\nno inputs\nteam 1"),
            // refused 4
            ("read:1", ""),
            ("board:0:1", "board 0\nended"),
            ("look:0:5", "tick 0\nnowhere\nno inputs\nteam -"),
            ("board:1:9", "board 1\nteam 5 2\nteam 127 -1\nended"),
        ],
    );
}

/// A rewind ends at its TickStart though that has left the reader's reel.
#[test]
fn outlives_the_reel() {
    let mut input = input(&["01 42 05 06 07 41 00"]);
    // start 0, new 5 6 7, end 0, start 1, Joins
    input.extend([0x47, 0x00].repeat(1100));
    let steps = [
        ("read:10", ""),
        ("start:0:0", "started"),
        ("start:1:1", "started"),
        ("read:502", ""),
        ("start:2:0", "started"),
        ("read:1", ""),
        ("start:2:0", "refused 20"),
        ("read:500", ""),
        ("splits:1:1", "refused 20"),
        ("board:0:8", "board 0\nplayer 5 6 7\ngoing"),
        ("board:0:1", "board 0\nended"),
        ("go:2:510", "going"),
        ("go:2:1", "ended"),
        ("board:1:6", "board 1\nplayer 5 6 7\nended"),
    ];
    tells(&input, &steps);
    let script: Vec<&str> = steps.iter().map(|(step, _)| *step).collect();
    let script = Script::listed(&script.join(",")).expect("steps");
    let told = told(&script, &input);
    assert_eq!((told.started, told.refused, told.splits), (3, 2, 0));
    assert_eq!((told.calls, told.outlived, told.boards), (5, 5, 3));
}

/// The calls of 1, 7, 511 and 512 events; the rewind is left at its end.
#[test]
fn splits() {
    let mut input = input(&["01"]);
    // start 0, Joins
    input.extend([0x47, 0x00].repeat(1100));
    let steps = [
        ("read:1", ""),
        ("splits:0:0", "splits 1 1 1 1"),
        ("go:0:0", "ended"),
        ("read:1", ""),
        ("splits:0:0", "splits 1 1 1 1"),
        ("read:7", ""),
        ("splits:0:0", "splits 8 2 1 1"),
        ("read:503", ""),
        ("splits:1:0", "splits 511 73 1 1"),
        ("board:1:0", "board 0\nended"),
        ("read:1", ""),
        ("splits:1:0", "refused 20"),
        ("board:1:0", "board 0\nended"),
    ];
    tells(&input, &steps);
}

/// A full window that answers more leaves the reader open; one byte less is refused 3, and a negative length 21.
#[test]
fn too_long() {
    for (length, filling, answer) in [
        ("b0 c5 08", 65531, "started"),
        ("b0 c5 08", 65530, "refused 18"),
        ("40", 65533, "refused 18"),
    ] {
        let mut body = input(&["02 42 00 01 01 46 00", length]);
        body.extend([0x40].repeat(filling));
        tells(&body, &[("read:9", ""), ("start:0:0", answer)]);
    }
}
