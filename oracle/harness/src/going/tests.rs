//! Rewinds under way, worked out by hand.

use super::rewound;
use super::Reading;
use super::UnderWay;
use crate::records::bytes;

/// start 3, new 0 10 20, end 3, start 4, change 0 11 19 10 20, end 4
const FIRST: &str = "01410242000a1400014040";

fn input(digits: &str) -> Vec<u8> {
    bytes(digits).expect("hex digits")
}

#[test]
fn steps() {
    let mut rewind = UnderWay { at: 9, start: 4 };
    for (events, at, line) in [
        (0, 9, "going\n"),
        (1, 8, "going\n"),
        (3, 5, "going\n"),
        (0, 5, "going\n"),
        (1, 4, "ended\n"),
        (1, 4, "ended\n"),
        (0, 4, "ended\n"),
    ] {
        rewind.go(events);
        assert_eq!((rewind.at, rewind.line()), (at, line), "{events}");
    }
    let mut rewind = UnderWay { at: 9, start: 4 };
    rewind.go(u64::MAX);
    assert_eq!(rewind, UnderWay { at: 4, start: 4 });
}

#[test]
fn calls() {
    for (newer, events, wanted) in [
        (0, 1, 1),
        (0, 512, 1),
        (1, 1, 1),
        (6, 7, 1),
        (7, 7, 1),
        (8, 7, 2),
        (510, 511, 1),
        (511, 511, 1),
        (511, 510, 2),
        (511, 1, 511),
        (511, 7, 73),
        (511, 512, 1),
    ] {
        let rewind = UnderWay {
            at: 1 + newer,
            start: 1,
        };
        assert_eq!(rewind.calls(events), wanted, "{newer} {events}");
    }
}

/// Where a rewind starts, after every number of events.
#[test]
fn starts() {
    let input = input(FIRST);
    for (events, third, fourth) in [
        (0, Err(20), Err(20)),
        (1, Ok((1, 1)), Err(20)),
        (3, Ok((3, 1)), Err(20)),
        (4, Ok((4, 1)), Ok((4, 4))),
        (6, Ok((6, 1)), Ok((6, 4))),
        // finish
        (7, Ok((6, 1)), Ok((6, 4))),
        (100, Ok((6, 1)), Ok((6, 4))),
    ] {
        let mut reading = Reading::new(&input).expect("version 1");
        reading.read(events);
        for (tick, wanted) in [(3, third), (4, fourth), (5, Err(20)), (-1, Err(20))] {
            let wanted = wanted.map(|(at, start)| UnderWay { at, start });
            assert_eq!(reading.start(tick), wanted, "{events} {tick}");
        }
    }
}

/// The 512th event from the end is on the reel, the one before it isn't.
#[test]
fn reel() {
    let mut joins = vec![0x01];
    joins.extend([0x47, 0x00].repeat(600));
    let mut reading = Reading::new(&joins).expect("version 1");
    reading.read(512);
    let oldest = UnderWay { at: 512, start: 1 };
    assert_eq!(reading.start(0), Ok(oldest));
    assert!(!reading.has_lost(&oldest));
    reading.read(1);
    assert_eq!(reading.start(0), Err(20));
    assert!(reading.has_lost(&oldest));
    // the end, where bytes run out, is a refusal
    reading.read(1000);
    assert_eq!(reading.start(0), Err(18));
    assert_eq!(reading.board(&oldest), "board 0\n");
}

/// The rewind program with a STEP, over teams: start 0, 5 in 1, 5 in 2, end 0.
#[test]
fn teams() {
    let team = "4aa111c04e1ea838e090b1d7f993ca0da902";
    let input = input(&["02", team, "0501", team, "0502", "40"].concat());
    let calls = [
        "board 0\nteam 5 2\ngoing\n",
        "board 0\nteam 5 1\ngoing\n",
        "board 0\nended\n",
    ];
    assert_eq!(rewound(&input, 0, 1, None), calls.concat());
    assert_eq!(rewound(&input, 0, 2, None), [calls[1], calls[2]].concat());
    assert_eq!(rewound(&input, 0, 3, None), calls[2]);
    assert_eq!(rewound(&input, 0, 1, Some(2)), calls[2]);
}

/// The rewind program with a STEP.
#[test]
fn rewinds() {
    let calls = [
        "board 4\nplayer 0 11 19\ngoing\n",
        "board 4\nplayer 0 10 20\ngoing\n",
        "board -\nplayer 0 10 20\ngoing\n",
        "board 3\nplayer 0 10 20\ngoing\n",
        "board 3\nended\n",
    ];
    let input = input(FIRST);
    let twos = [calls[1], calls[3], calls[4]].concat();
    assert_eq!(rewound(&input, 3, 1, None), calls.concat());
    assert_eq!(rewound(&input, 3, 2, None), twos);
    assert_eq!(rewound(&input, 3, 4, None), [calls[3], calls[4]].concat());
    assert_eq!(rewound(&input, 3, 5, None), calls[4]);
    assert_eq!(rewound(&input, 3, 512, None), calls[4]);
    assert_eq!(rewound(&input, 3, 1, Some(1)), "board 3\nended\n");
    assert_eq!(rewound(&input, 3, 1, Some(0)), "refused 20\n");
    assert_eq!(rewound(&input, 5, 1, None), "refused 20\n");
    assert_eq!(rewound(&input[..10], 3, 1, None), "refused 18\n");
    assert_eq!(rewound(&[], 3, 1, None), "refused 2\n");
}
