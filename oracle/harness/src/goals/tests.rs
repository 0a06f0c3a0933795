//! Goals as they are written and read.

use super::Goal;
use super::ALL;
use crate::changes::between;
use crate::changes::Change;
use crate::changes::What;
use crate::entries::Entries;
use crate::entries::Held;
use crate::entries::Player;
use crate::entries::Team;
use crate::entries::Wanted;
use crate::framed::parted;
use crate::stand::Stand;

#[test]
fn read_as_written() {
    let line = "7 0147:258 0240 tick:-1,x:127:5,outside,team:5:-2";
    let (input, goal) = Goal::listed(line).expect("a goal");
    assert_eq!(input, [0x01, 0x47]);
    assert_eq!((goal.room, goal.events, goal.to_events), (7, 258, ALL));
    let case = goal.framed(&input);
    let numbers = [12, 0, 0, 7, 0, 0, 0, 2, 1, 0, 0, 255, 255, 255, 255];
    let inputs = [2, 0, 0, 0x01, 0x47, 2, 0, 0, 0x02, 0x40];
    let tick = [6, 14, 0, 255, 255, 255, 255];
    let x = [6, 11, 127, 5, 0, 0, 0];
    let outside = [6, 15, 0, 0, 0, 0, 0];
    let team = [6, 16, 5, 1, 0, 0, 0, 6, 17, 5, 254, 255, 255, 255];
    let parts = [
        &[63, 0, 0][..],
        &numbers,
        &inputs,
        &[35, 0, 0],
        &tick,
        &x,
        &outside,
        &team,
    ];
    assert_eq!(case, parts.concat());
    let (inner, rest) = parted(&case).expect("a case");
    assert_eq!(Goal::read(inner), Some((goal, &[0x01, 0x47][..])));
    assert!(rest.is_empty());
}

#[test]
fn rooms() {
    // the bytes are 42 06 07 08
    let room = |word: &str| {
        let (_, goal) = Goal::listed(&format!("{word} 0142050000 same player:6:7:8"))?;
        Some(goal.room)
    };
    assert_eq!(room("much"), Some(ALL));
    assert_eq!(room("full"), Some(4));
    assert_eq!(room("short"), Some(3));
    assert_eq!(room("16384"), Some(16384));
    assert_eq!(room("little"), None);
    // nothing is written, and nothing can be
    assert!(Goal::listed("short 0142050000 same -").is_none());
    assert!(Goal::listed("full 0142050000 same outside").is_none());
}

#[test]
fn refused() {
    for line in [
        "",
        "much 01 same",
        "much 01 same - -",
        "much 1 same -",
        "much 01:x same -",
        "much 01 other -",
        "much 01 same tick",
        "much 01 same tick:2147483648",
        "much 01 same outside:1",
        "much 01 same player:0:1",
        "much 01 same player:256:1:1",
        "much 01 same inputs:0:1:2:3:4:5:6:7:8:9",
        "much 01 same number:0:10:1",
        "much 01 same gone",
        "much 01 same team:0",
        "much 01 same team:256:1",
        "much 01 same teamless:0:1",
        "much 01 same teammark:0",
        "much 01 same teamnumber:0:2147483648",
        "much 01 same tick:1,",
        "aimed:x 01 01",
    ] {
        assert!(Goal::listed(line).is_none(), "{line}");
    }
    // too few parts, too few numbers, a change that isn't there, bytes behind the parts
    let case = |parts: &[&[u8]]| parts.concat();
    let numbers: &[u8] = &[12, 0, 0, 0, 0, 0, 0, 0, 0, 0, 0, 0, 0, 0, 0];
    let none: &[u8] = &[0, 0, 0];
    assert!(Goal::read(&case(&[numbers, none, none, none])).is_some());
    assert!(Goal::read(&case(&[numbers, none, none])).is_none());
    assert!(Goal::read(&case(&[none, none, none, none])).is_none());
    assert!(Goal::read(&case(&[numbers, none, none, none, &[0]])).is_none());
    let strange: &[u8] = &[7, 0, 0, 6, 18, 0, 0, 0, 0, 0];
    assert!(Goal::read(&case(&[numbers, none, none, strange])).is_none());
}

#[test]
fn changes_make_the_board() {
    let mut from = Wanted {
        tick: None,
        entries: Entries::none(),
    };
    from.entries.players[3] = Player::at(1, 2);
    from.entries.inputs[4] = Held::of([5; 10]);
    from.entries.teams[4] = Team::of(0);
    from.entries.teams[5] = Team::of(1);
    let mut to = from.clone();
    assert_eq!(between(&from, &to), []);
    to.tick = Some(0);
    to.entries.players[3] = Player::at(1, 3);
    to.entries.players[127] = Player::at(0, 9);
    to.entries.inputs[4].ten[8] = i32::MIN;
    to.entries.teams[3] = Team::of(0);
    to.entries.teams[4] = Team::of(6);
    to.entries.teams[5] = Team::default();
    let one = |what, client, number| Change {
        what,
        client,
        number,
    };
    let changes = [
        one(What::Tick, 0, 0),
        one(What::Y, 3, 3),
        one(What::TeamMark, 3, 1),
        one(What::Number(8), 4, i32::MIN),
        one(What::TeamNumber, 4, 6),
        one(What::TeamMark, 5, 0),
        one(What::TeamNumber, 5, 0),
        one(What::Mark, 127, 1),
        one(What::Y, 127, 9),
    ];
    assert_eq!(between(&from, &to), changes);
    for (from, to) in [(&from, &to), (&to, &from)] {
        let mut board = from.clone();
        between(from, to).iter().for_each(|c| c.make(&mut board));
        assert_eq!(board, *to);
    }
}

/// The tick outside one and the remembered client, as libtw2's reader has them.
#[test]
fn readers() {
    for (body, tick, behind) in [
        (&[0x01][..], 0, 0),
        (&[0x01, 0x47, 0x00], 0, 0),
        (&[0x01, 0x42, 0x05, 0, 0], 0, 6),
        (&[0x01, 0x42, 0x05, 0, 0, 0x47, 0x00], 0, 6),
        (&[0x01, 0x42, 0x05, 0, 0, 0x05, 0, 0], 1, 6),
        (&[0x01, 0x42, 0x05, 0, 0, 0x41, 0x06], 7, 0),
        (&[0x01, 0x42, 0x05, 0, 0, 0x41, 0x06, 0x41, 0x00], 8, 0),
        (&[0x01, 0x42, 0xbf, 0x01, 0, 0], 0, 128),
        (
            &[0x01, 0x41, 0xbe, 0xff, 0xff, 0xff, 0x0f, 0x42, 0x07, 0, 0],
            i32::MAX,
            8,
        ),
    ] {
        let stand = Stand::of(body, u64::MAX);
        let open = !stand.is_bad && !stand.is_closed && !stand.is_pending;
        assert!(open && !stand.is_by_hand(), "{body:?}");
        assert_eq!((stand.tick, stand.behind()), (tick, behind), "{body:?}");
    }
}

#[test]
fn one_change_less() {
    let (_, goal) = Goal::listed("9 01 same tick:1,x:0:1,y:0:1").expect("a goal");
    let shorter = goal.shorter();
    assert_eq!(shorter.len(), 4);
    assert!(shorter[..3].iter().all(|goal| goal.changes.len() == 2));
    assert_eq!((shorter[3].room, shorter[3].changes.len()), (ALL, 3));
}
