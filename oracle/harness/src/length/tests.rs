//! Negative lengths worked out by hand, and what only looks like one.

use super::begins_negative;
use super::stops_at_negative;
use crate::expected::expected;
use crate::records::bytes;
use libtw2_teehistorian::format::Version;

/// Sixteen bytes that are no known identifier, and PlayerFinish's.
const UNKNOWN: &str = "00010203 04050607 08090a0b 0c0d0e0f";
const FINISH: &str = "68943c01 23483e01 94903f27 f8269d94";

/// Forms of -1, -64, -65 and the least number: plain, overlong, padded.
const NEGATIVE: [&str; 15] = [
    "40",
    "c0 00",
    "c0 80 00",
    "c0 80 80 80 00",
    "bf ff ff ff 1f",
    "c0 80 80 80 20",
    "c0 80 80 80 80",
    "7f",
    "ff 00",
    "c0 01",
    "c0 81 00",
    "ff ff ff ff 0f",
    "ff ff ff ff ef",
    "80 80 80 80 10",
    "80 80 80 80 f0",
];

/// Forms of 0.
const EMPTY: [&str; 5] = [
    "00",
    "80 00",
    "80 80 80 80 80",
    "80 80 80 80 20",
    "ff ff ff ff 1f",
];

/// Forms of 3 and of the largest number.
const SHORT: [&str; 4] = ["03", "83 00", "bf ff ff ff 0f", "c0 80 80 80 10"];

fn input(parts: &[&str]) -> Vec<u8> {
    let digits: String = parts.concat().split(' ').collect();
    bytes(&digits).expect("hex digits")
}

/// The last line for an input.
fn ends(input: &[u8], wanted: &str) {
    let text = expected(input).text;
    assert_eq!(text.lines().last(), Some(wanted), "{input:02x?}");
}

/// Whether the first record that isn't whole has a negative length, and the last line for the same body.
fn stops(version: u8, parts: &[&str], negative: bool) {
    let body = input(parts);
    let known = if version == 1 {
        Version::V1
    } else {
        Version::V2
    };
    assert_eq!(stops_at_negative(known, &body), negative, "{parts:?}");
    let wanted = if negative { "refused 21" } else { "refused 3" };
    ends(&[&[version], &body[..]].concat(), wanted);
}

#[test]
fn smallest() {
    stops(1, &["46 00 40"], true);
    stops(2, &["46 00 40"], true);
    stops(2, &["4a", UNKNOWN, "40"], true);
    stops(2, &["4a", FINISH, "40"], true);
}

/// Every form, with bytes behind it too; and cut before its last byte.
#[test]
fn forms() {
    for form in NEGATIVE {
        let whole = input(&[form]);
        for (version, head) in [(1, input(&["46 05"])), (2, input(&["4a", UNKNOWN]))] {
            for behind in ["", "40", "00 00 00 00", "47 00 40"] {
                let body = [&[version], &head[..], &whole, &input(&[behind])].concat();
                ends(&body, "refused 21");
            }
            for end in 0..whole.len() {
                ends(
                    &[&[version], &head[..], &whole[..end]].concat(),
                    "refused 3",
                );
            }
        }
    }
}

/// What is before the length runs out, and the length itself.
#[test]
fn cut() {
    for body in [
        "",
        "46",
        "46 00",
        "46 00 c0",
        "46 80",
        "c6",
        "46 00 ff ff ff ff",
    ] {
        stops(1, &[body], false);
        stops(2, &[body], false);
    }
    stops(2, &["4a"], false);
    stops(2, &["4a", &UNKNOWN[..UNKNOWN.len() - 2]], false);
    stops(2, &["4a", UNKNOWN], false);
    stops(2, &["4a", UNKNOWN, "c0"], false);
    stops(2, &["4a", UNKNOWN, "ff ff ff ff"], false);
}

/// Lengths of 0 and above.
#[test]
fn others() {
    for form in EMPTY {
        ends(&input(&["01 46 00", form, "40"]), "finish");
        ends(&input(&["02 4a", UNKNOWN, form, "40"]), "finish");
    }
    for form in SHORT {
        stops(1, &["46 00", form, "01 02"], false);
        stops(2, &["4a", UNKNOWN, form, "01 02"], false);
    }
    ends(&input(&["01 46 00 03 01 02 03 40"]), "finish");
}

/// Version 1 has no extensions; other refusals come first.
#[test]
fn refused_otherwise() {
    ends(&input(&["01 4a", UNKNOWN, "40"]), "refused 4");
    ends(&input(&["01 47 00 4a", UNKNOWN, "40"]), "refused 4");
    ends(&input(&["02 05 00 00 46 00 40"]), "refused 14");
    ends(&input(&["02 41 40 46 00 40"]), "refused 5");
    ends(&input(&["02 4b 46 00 40"]), "refused 4");
    ends(&input(&["02 40 46 00 40"]), "finish");
    ends(&input(&["02 42 80 02 00 00 46 00 40"]), "refused 10");
}

/// Behind other records, whole ones of both sorts among them.
#[test]
fn behind_others() {
    let before = [
        "42 05 01 02 41 00 05 01 01 46 07 03 01 02 03 48 05 41 00 4a",
        FINISH,
        "02 05 0a 4a",
        UNKNOWN,
        "80 00 49 00 00 61 00 01 62 00 47 05",
    ]
    .concat();
    stops(2, &[&before], false);
    stops(2, &[&before, "46 00 40"], true);
    stops(2, &[&before, "46 00 c0"], false);
    stops(2, &[&before, "4a", FINISH, "40 47 00 40"], true);
    stops(2, &[&before, "4a", FINISH, "02 05"], false);
    stops(2, &[&before, "46 00 02 40"], false);
}

/// Inside data, strings and numbers there is no length.
#[test]
fn inside() {
    // the data is itself such a record
    ends(&input(&["01 46 00 03 46 00 40 40"]), "finish");
    ends(&input(&["02 4a", UNKNOWN, "03 46 00 40 40"]), "finish");
    // PlayerFinish: the payload runs out, and holds what would be a length
    stops(2, &["4a", FINISH, "01 40"], false);
    stops(2, &["4a", FINISH, "01 40 40 40"], false);
    stops(2, &["4a", FINISH, "00"], false);
    // client -1 and time -1; a client of the Message below 0
    ends(&input(&["02 4a", FINISH, "02 40 40 40"]), "finish");
    ends(&input(&["01 46 40 00 40"]), "finish");
    stops(1, &["46 40 40"], true);
    // a string that is a record up to its 00; a message cut in its data, which is one
    ends(&input(&["01 48 00 46 00 40"]), "finish");
    stops(1, &["48 00 46 40"], false);
    stops(1, &["46 00 04 46 00 40"], false);
    // a PlayerDiff of client 6 and Inputs that are cut behind 46 00 40
    stops(1, &["42 06 00 00 06 46"], false);
    stops(1, &["45 46 00 40"], false);
}

/// The call sees a whole window, or a byte less: neither is waited for nor `too long`.
#[test]
fn windows() {
    for (head, filling) in [
        (["01 46 00 40", "", ""], 65534),
        (["02 4a", UNKNOWN, "40"], 65519),
        (["02 47 00 46 00 40", "", ""], 65533),
    ] {
        for less in 0..2 {
            let mut body = input(&head);
            body.extend(vec![0x40; filling - less]);
            ends(&body, "refused 21");
            body.extend(vec![0x40; 70000]);
            ends(&body, "refused 21");
        }
    }
    // 70,000 bytes of data
    for (filling, wanted) in [(65532, "too long"), (65531, "refused 3")] {
        let mut body = input(&["01 46 00 b0 c5 08"]);
        body.extend(vec![0x40; filling]);
        ends(&body, wanted);
    }
}

/// The record by itself, as the record call reads it.
#[test]
fn records() {
    assert!(begins_negative(Version::V1, &input(&["46 00 40"])));
    assert!(begins_negative(Version::V2, &input(&["4a", FINISH, "40"])));
    assert!(!begins_negative(Version::V1, &input(&["4a", FINISH, "40"])));
    assert!(!begins_negative(Version::V1, &input(&["46 00 c0"])));
    assert!(!begins_negative(Version::V1, &input(&["47 00 46 00 40"])));
    assert!(!begins_negative(Version::V1, &[]));
}
