//! Boards and the records to them, worked out by hand.

use super::told;
use super::Cause;
use crate::changes::Change;
use crate::goals::Goal;
use crate::goals::ALL;
use crate::records::bytes;
use crate::stand::Stand;

const TEN: &str = "01 02 03 04 05 06 07 08 09 0a";
const TENS: &str = "1:2:3:4:5:6:7:8:9:10";
const NULLS: &str = "0:0:0:0:0:0:0:0:0:0";
/// Kind -11 and the identifier of PlayerTeam; a payload's length, a client and a team follow.
const TEAM: &str = "4a a1 11 c0 4e 1e a8 38 e0 90 b1 d7 f9 93 ca 0d a9";

fn input(parts: &[&str]) -> Vec<u8> {
    let digits: String = parts.join(" ").split(' ').collect();
    bytes(&digits).expect("hex digits")
}

/// To the reader's own board, changed.
fn own(changes: &str) -> Goal {
    let words = changes.split(' ').filter(|word| !word.is_empty());
    let changes: Vec<Vec<Change>> = words
        .map(|word| Change::listed(word).expect("a change"))
        .collect();
    Goal {
        changes: changes.concat(),
        ..Goal::same()
    }
}

fn reaches(parts: &[&str], changes: &str, wanted: &str) {
    let told = told(&input(parts), &own(changes));
    assert_eq!(told.text, format!("{wanted}\n"), "{parts:?} {changes}");
}

/// Refused 23 by these causes.
fn unreachable(parts: &[&str], changes: &str, causes: &[Cause]) {
    let told = told(&input(parts), &own(changes));
    assert_eq!(told.text, "refused 23\n", "{parts:?} {changes}");
    assert_eq!(told.causes, causes, "{parts:?} {changes}");
}

/// Outside a tick nothing is reached; a tick that has nothing else to start it gets the empty command.
#[test]
fn beginnings() {
    unreachable(&["01"], "", &[Cause::Outside]);
    unreachable(&["01 47 00"], "outside", &[Cause::Outside]);
    reaches(&["01"], "tick:0", "4940000000 2");
    reaches(&["02"], "tick:0 player:0:10:20", "42000a14 2");
    reaches(&["01"], "tick:1", "4100 1");
    reaches(&["01"], "tick:2147483647", "41beffffff0f 1");
    reaches(&["01 47 00"], "", "- 0");
    reaches(&["01 47 00"], "tick:0", "- 0");
}

/// Inside a tick a skip ends it, and the next record starts the new one; outside it starts the next.
#[test]
fn ticks() {
    // inside 3; outside, 4 comes next
    for (body, below, same, next) in [
        ("01 41 02", 2, "- 0", "41004940000000 3"),
        ("01 41 02 41 00", 3, "4940000000 2", "4100 1"),
        ("01 47 00 41 03", 3, "4940000000 2", "4100 1"),
        ("01 42 05 00 00 05 00 00", 0, "- 0", "41004940000000 3"),
    ] {
        unreachable(&[body], &format!("tick:{below}"), &[Cause::Tick]);
        reaches(&[body], &format!("tick:{}", below + 1), same);
        reaches(&[body], &format!("tick:{}", below + 2), next);
    }
    let last = "01 41 be ff ff ff 0f 42 05 00 00";
    unreachable(&[last], "tick:2147483646", &[Cause::Tick]);
    unreachable(&[last], "gone:5", &[Cause::Player]);
    reaches(&[last], "player:6:0:0", "42060000 1");
    let before = "01 41 bd ff ff ff 0f 42 05 00 00";
    reaches(&[before], "tick:2147483647 gone:5", "41004305 3");
}

#[test]
fn inputs() {
    let body = ["01 45 03", TEN];
    reaches(&body, "", "- 0");
    reaches(&body, &format!("inputs:3:{TENS}"), "- 0");
    reaches(&body, "number:3:9:-1", "450301020304050607080940 1");
    reaches(
        &body,
        &format!("inputs:4:{NULLS}"),
        "450400000000000000000000 1",
    );
    unreachable(&body, "lost:3", &[Cause::Inputs]);
    unreachable(&body, "lost:3 tick:7", &[Cause::Inputs]);
    // zeros aren't none
    let zeros = ["01 45 03 00 00 00 00 00 00 00 00 00 00"];
    unreachable(&zeros, "lost:3", &[Cause::Inputs]);
    // at and below the remembered client too; PlayerOld leaves them
    let player = ["01 42 05 00 00 45 05", TEN];
    reaches(&player, "number:5:0:0", "45050002030405060708090a 1");
    reaches(&["01 42 05 00 00 45 05", TEN, "43 05"], "", "- 0");
}

/// In a tick under way the clients rise; behind a skip and outside a tick any may come.
#[test]
fn players() {
    let body = "01 42 02 00 00 42 05 01 02";
    for client in [0, 2, 4, 5] {
        let changes = format!("player:{client}:7:7");
        unreachable(&[body], &changes, &[Cause::Player]);
        assert!(told(&input(&[body, "41 00"]), &own(&format!("tick:1 {changes}"))).events > 0);
    }
    reaches(&[body], "player:5:1:2", "- 0");
    reaches(&[body], "player:6:7:8", "42060708 1");
    reaches(&[body], "tick:1 player:5:7:8", "4100050606 3");
    reaches(&[body], "tick:1 gone:5 player:0:3:4", "4100420003044305 4");
    reaches(&[body, "41 00"], "tick:1 gone:2", "4302 2");
    // who has left is remembered, and so is the last client
    unreachable(&[body, "41 00 43 05"], "player:5:1:2", &[Cause::Player]);
    reaches(&[body, "41 00 43 05"], "player:6:1:2", "42060102 1");
    let last = "01 42 bf 01 00 00";
    unreachable(&[last], "player:126:0:0", &[Cause::Player]);
    unreachable(&[last], "gone:127", &[Cause::Player]);
    reaches(&[last], "tick:1 gone:127", "410043bf01 3");
    // a tick that no player has begun
    reaches(&[body, "41 00 47 00"], "gone:2", "4302 1");
    reaches(&[body, "41 00 41 00"], "gone:2", "4302 1");
    // one that player 2 has begun, by coming back
    unreachable(&[body, "02 00 00"], "player:2:1:1", &[Cause::Player]);
    reaches(&[body, "02 00 00"], "gone:5", "4305 1");
}

/// A PlayerTeam for each client whose team is another one, behind all else; a tick needs nothing more to start it.
#[test]
fn teams() {
    let record = |numbers: &str| [TEAM, numbers].concat().replace(' ', "");
    let one = record("02 05 01");
    reaches(&["02"], "tick:0 team:5:1", &format!("{one} 2"));
    reaches(&["02"], "tick:1 team:5:1", &format!("4100{one} 2"));
    reaches(&["02 47 00"], "team:5:1", &format!("{one} 1"));
    reaches(&["02 47 00"], "team:5:1 tick:1", &format!("4100{one} 3"));
    for (number, written) in [
        (0, "02 05 00"),
        (-1, "02 05 40"),
        (i32::MIN, "06 05 ff ff ff ff 0f"),
        (i32::MAX, "06 05 bf ff ff ff 0f"),
    ] {
        let wanted = format!("{} 1", record(written));
        reaches(&["02 47 00"], &format!("team:5:{number}"), &wanted);
    }
    let members = ["02", TEAM, "02 05 01", TEAM, "03 bf 01 00"];
    reaches(&members, "", "- 0");
    reaches(&members, "team:5:1 team:127:0", "- 0");
    reaches(&members, "tick:1", "41004940000000 3");
    reaches(
        &members,
        "teamnumber:127:7",
        &format!("{} 1", record("03 bf 01 07")),
    );
    let both = [record("02 05 00"), record("03 bf 01 01")].concat();
    reaches(&members, "team:127:1 team:5:0", &format!("{both} 2"));
    let all = ["42010203", "4505", &"00".repeat(10), &record("02 04 02")].concat();
    reaches(
        &members,
        &format!("team:4:2 inputs:5:{NULLS} player:1:2:3"),
        &format!("{all} 3"),
    );
    // a client who has left, or never came, and clients at or below the remembered one
    let gone = ["02 42 05 00 00", TEAM, "02 05 01 41 00 43 05"];
    reaches(&gone, "team:5:2", &format!("{} 1", record("02 05 02")));
    reaches(&gone, "team:4:2", &format!("{} 1", record("02 04 02")));
    // who has a team keeps one, and version 1 has none
    for client in [5, 127] {
        let lost = format!("teamless:{client}");
        unreachable(&members, &lost, &[Cause::Team]);
        unreachable(&members, &format!("tick:9 {lost}"), &[Cause::Team]);
        unreachable(&members, &format!("{lost} team:6:1"), &[Cause::Team]);
        let wanted = format!("tick:0 team:{client}:0");
        unreachable(&["01"], &wanted, &[Cause::Version]);
    }
    reaches(&["01"], "tick:0 teamless:5", "4940000000 2");
}

/// Bytes that leave other teams lead elsewhere.
#[test]
fn arrivals() {
    let stand = Stand::of(&input(&["02 47 00"]), u64::MAX);
    let wanted = own("team:5:1").wanted(&stand);
    let arrives = |parts: &[&str]| stand.arrives(&input(parts), &wanted);
    assert_eq!(arrives(&[TEAM, "02 05 01"]), Some(1));
    assert_eq!(arrives(&[TEAM, "02 05 02", TEAM, "02 05 01"]), Some(2));
    assert_eq!(stand.arrives(&[], &wanted), None);
    for other in ["02 05 02", "02 04 01", "02 40 01"] {
        assert_eq!(arrives(&[TEAM, other]), None, "{other}");
        let both = arrives(&[TEAM, "02 05 01", TEAM, other]);
        let is_aside = other.starts_with("02 40");
        assert_eq!(both, is_aside.then_some(2), "{other}");
    }
}

/// A mark other than 0 and 1, of which all four bytes count, and a number without a team.
#[test]
fn bad_teams() {
    for body in ["01", "02", "02 40", "02 42 05"] {
        for change in [
            "teammark:0:2",
            "teammark:127:-1",
            "teammark:5:256",
            "teammark:5:257",
            "teammark:5:-2147483648",
            "teamnumber:127:1",
            "teamnumber:0:-2147483648",
            "team:5:1 teammark:5:0",
        ] {
            reaches(&[body], &format!("tick:0 {change}"), "refused 17");
        }
    }
    reaches(
        &["02"],
        "tick:0 teammark:5:0 teamnumber:127:0",
        "4940000000 2",
    );
    let wanted = [TEAM, "02 05 00"].concat().replace(' ', "");
    reaches(&["02"], "tick:0 teammark:5:1", &format!("{wanted} 2"));
}

#[test]
fn differences_wrap() {
    let body = "01 42 00 ff ff ff ff 0f bf ff ff ff 0f 41 00";
    let changes = "tick:1 player:0:2147483647:-2147483648";
    reaches(&[body], changes, "004001 2");
    reaches(&[body], "tick:1 player:0:0:0", "00ffffffff0ffeffffff0f 2");
}

#[test]
fn several_causes() {
    unreachable(
        &["01 42 05 00 00 45 05", TEN, "41 00 05 00 00"],
        "tick:0 lost:5",
        &[Cause::Tick, Cause::Inputs],
    );
    unreachable(
        &["01 42 05 00 00 45 05", TEN],
        "gone:5 lost:5",
        &[Cause::Inputs, Cause::Player],
    );
    unreachable(
        &["02 42 05 00 00", TEAM, "02 05 01"],
        "gone:5 teamless:5",
        &[Cause::Team, Cause::Player],
    );
    unreachable(
        &["01 42 05 00 00 41 00 05 00 00"],
        "tick:0 team:5:1",
        &[Cause::Tick, Cause::Version],
    );
}

/// Just after a TickStart or a TickEnd that a kind gave, or in a record; a TickSkip is read whole.
#[test]
fn pending() {
    // start, new, end, start, change
    let body = input(&["01 42 05 00 00 05 01 01"]);
    for (events, wanted) in [
        (0, "4108 1"),
        (1, "refused 22"),
        (2, "41084940000000 3"),
        (3, "refused 22"),
        (4, "refused 22"),
        (5, "41074940000000 3"),
        (ALL, "41074940000000 3"),
    ] {
        let goal = Goal {
            events,
            ..own("tick:9")
        };
        assert_eq!(told(&body, &goal).text, format!("{wanted}\n"), "{events}");
    }
    // start, old
    let old = input(&["01 42 05 00 00 41 00 43 05"]);
    let goal = |events| Goal {
        events,
        ..own("tick:1")
    };
    assert_eq!(told(&old, &goal(3)).text, "4940000000 2\n");
    assert_eq!(told(&old, &goal(4)).text, "refused 22\n");
    assert_eq!(told(&old, &goal(5)).text, "- 0\n");
    assert_eq!(told(&old, &goal(ALL)).text, "- 0\n");
    reaches(&["01 42"], "tick:0", "4940000000 2");
    reaches(&["01 42 05"], "tick:0", "refused 22");
    reaches(&["01 42 05 01 01 40"], "tick:0", "refused 18");
}

/// 17, 18, 22, 23, 9.
#[test]
fn order() {
    let bad = "tick:-1";
    for body in ["01", "01 40", "01 4b", "01 42 05"] {
        reaches(&[body], bad, "refused 17");
        reaches(&[body], "tick:0 mark:0:2", "refused 17");
        reaches(&[body], "tick:0 x:127:1", "refused 17");
        reaches(&[body], "tick:0 held:127:2", "refused 17");
        reaches(&[body], "tick:0 number:0:9:1", "refused 17");
    }
    for body in [
        "01 40",
        "02 4b",
        "01 4a",
        "01 42 80 02 00 00",
        "02 46 00 40",
    ] {
        reaches(&[body], "outside", "refused 18");
        reaches(&[body], "tick:0", "refused 18");
    }
    reaches(&["01 42 05"], "outside", "refused 22");
    let tight = |changes, room| Goal {
        room,
        ..own(changes)
    };
    for (changes, room, wanted) in [
        (bad, 0, "refused 17"),
        ("gone:5", 0, "refused 23"),
        ("", 0, "- 0"),
        ("player:6:7:8", 0, "refused 9"),
        ("player:6:7:8", 3, "refused 9"),
        ("player:6:7:8", 4, "42060708 1"),
    ] {
        let told = told(&input(&["01 42 05 00 00"]), &tight(changes, room));
        assert_eq!(told.text, format!("{wanted}\n"), "{changes} {room}");
    }
}

/// Another input's board: its tick, its players and its inputs, in either version.
#[test]
fn another_board() {
    let reader = input(&["01 42 05 00 00 45 05", TEN]);
    let goal = |to: &[&str], to_events| Goal {
        to: input(to),
        to_events,
        ..own("")
    };
    let to = ["02 41 08 42 01 02 03 45 05", TEN, "05 00"];
    let wanted = "4108420102034305 4\n";
    assert_eq!(told(&reader, &goal(&to, ALL)).text, wanted);
    assert_eq!(told(&reader, &goal(&to, 3)).text, wanted);
    assert_eq!(told(&reader, &goal(&to, 2)).causes, [Cause::Inputs]);
    assert_eq!(told(&reader, &goal(&["01"], ALL)).causes, [Cause::Outside]);
}

/// A version, a tick, a largest client, a pending kind and its client, open or not, inside or not; a client, its position, its inputs;
/// a client, the mark and the number of its team; the remembered client. Numbers are 100 more.
#[test]
fn by_hand() {
    for (reader, changes, wanted) in [
        (
            "00 01 64 63 00 64 00 00 00 00 64 64 00 00 64 00 64 64 ff",
            "tick:0",
            "4940000000",
        ),
        (
            "00 01 69 63 00 64 00 01 05 01 65 66 00 00 64 00 64 64 05",
            "",
            "-",
        ),
        (
            "00 01 69 63 00 64 00 01 05 01 65 66 00 00 64 00 64 64 04",
            "x:5:3",
            "050200",
        ),
        (
            "00 01 69 63 00 64 00 01 05 01 65 66 00 00 64 00 64 64 05",
            "x:5:3",
            "refused 23",
        ),
        (
            "00 01 69 63 00 64 00 01 05 01 65 66 00 00 64 00 64 64 fe",
            "player:127:1:1",
            "refused 23",
        ),
        (
            "00 01 69 63 00 64 00 00 05 01 65 66 00 00 64 00 64 64 05",
            "tick:5 x:5:3",
            "050200",
        ),
        (
            "00 01 69 63 00 64 00 01 05 00 64 64 01 09 65 00 64 64 ff",
            "held:5:0 number:5:9:0",
            "refused 23",
        ),
        // bad: the tick, the largest client, a mark, a number of nobody's, the pending kinds
        (
            "00 01 63 63 00 64 00 00 00 00 64 64 00 00 64 00 64 64 ff",
            "tick:0",
            "refused 17",
        ),
        (
            "00 01 64 62 00 64 00 00 00 00 64 64 00 00 64 00 64 64 ff",
            "tick:0",
            "refused 17",
        ),
        (
            "00 01 64 63 00 64 00 00 05 02 64 64 00 00 64 00 64 64 ff",
            "tick:0",
            "refused 17",
        ),
        (
            "00 01 64 63 00 64 00 00 05 00 64 65 00 00 64 00 64 64 ff",
            "tick:0 gone:5",
            "refused 17",
        ),
        (
            "00 01 64 63 00 64 00 00 05 00 64 64 00 00 65 00 64 64 ff",
            "tick:0 lost:5",
            "refused 17",
        ),
        (
            "00 01 64 63 01 63 00 00 00 00 64 64 00 00 64 00 64 64 ff",
            "tick:0",
            "refused 17",
        ),
        (
            "00 01 64 63 03 64 00 00 00 00 64 64 00 00 64 00 64 64 ff",
            "tick:0",
            "refused 17",
        ),
        // pending, closed and pending
        (
            "00 02 64 63 03 64 00 00 00 00 64 64 00 00 64 00 64 64 ff",
            "tick:0",
            "refused 22",
        ),
        (
            "00 01 64 63 02 63 00 00 00 00 64 64 00 00 64 00 64 64 ff",
            "tick:0",
            "refused 22",
        ),
        (
            "00 01 64 63 02 63 01 00 00 00 64 64 00 00 64 00 64 64 ff",
            "tick:0",
            "refused 18",
        ),
        (
            "00 01 64 63 00 64 02 00 00 00 64 64 00 00 64 00 64 64 ff",
            "tick:0",
            "refused 18",
        ),
    ] {
        reaches(&[reader], changes, wanted);
    }
}

/// The same with teams; without the last bytes nobody has one, and client 0 is remembered.
#[test]
fn teams_by_hand() {
    let reader = |version: &str, last: &str| {
        let head = "69 63 00 64 00 01 05 01 65 66 00 00 64";
        format!("00 {version} {head} {last}")
    };
    let five = |team: &str| [TEAM, "02 05", team].concat().replace(' ', "");
    for (version, last, changes, wanted) in [
        ("02", "05 65 67 ff", "", "-"),
        ("02", "05 65 67 ff", "team:5:3", "-"),
        ("02", "05 65 67 ff", "team:5:4", &five("04")),
        ("02", "05 65 ff ff", "", "-"),
        ("02", "05 65 ff ff", "team:5:-2147483648", "-"),
        ("02", "7f 65 64 ff", "teamless:127", "refused 23"),
        ("02", "7f 65 64 ff", "team:5:0", &five("00")),
        ("02", "80 66 64 ff", "", "-"),
        ("02", "ff 66 64 ff", "", "-"),
        ("02", "05 64 64 ff", "team:5:0", &five("00")),
        // version 1, with a team and without
        ("01", "05 65 67 ff", "", "refused 23"),
        ("01", "05 65 67 ff", "teamless:5", "refused 23"),
        ("01", "05 64 64 ff", "", "-"),
        // bad: marks of 2, -1 and the least number, a number of nobody's
        ("02", "05 66 64 ff", "teamless:5", "refused 17"),
        ("02", "05 63 64 ff", "teamless:5", "refused 17"),
        ("02", "05 ff 64 ff", "teamless:5", "refused 17"),
        ("02", "00 64 65 ff", "teamless:0", "refused 17"),
        // cut
        ("02", "", "", "-"),
        ("02", "", "player:0:1:1", "refused 23"),
        ("02", "", "x:5:3", "050200"),
        ("02", "05", "teamless:5", "refused 17"),
        ("02", "05 65", "teamnumber:5:-100", "-"),
        ("02", "05 65 67", "x:5:3", "050200"),
    ] {
        let reader = reader(version, last);
        reaches(&[reader.trim_end()], changes, wanted);
    }
}
