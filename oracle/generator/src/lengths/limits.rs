//! Negative lengths and what is near them, each by hand.

mod windows;

use super::Head;
use crate::body::Body;
use crate::extension::EXTENSIONS;
use crate::extension::PLAYER_FINISH;
use crate::integer;
use crate::random::Random;
use crate::record::Command;
use crate::record::EXTENSION;
use crate::record::MESSAGE;
use std::collections::HashSet;

const LEAST: i32 = i32::MIN;
const MOST: i32 = i32::MAX;
const TEN: [i32; 10] = [1, 2, 3, -4, 5, 6, -7, 8, 9, 10];

/// No extension has this identifier.
const UNKNOWN: [u8; 16] = [0xe5; 16];

const HEADS: [Head; 2] = [Head::Message(0), Head::Extension(UNKNOWN)];

fn new() -> Body {
    Body::new(2)
}

fn begun(body: Body, head: Head, length: i32) -> Body {
    head.add(body).int(length)
}

/// The smallest input of each sort.
pub fn smallest() -> Vec<Vec<u8>> {
    let message = |version| Body::new(version).ints(&[MESSAGE, 0]);
    let extension = |version| Body::new(version).int(EXTENSION).raw(&UNKNOWN);
    let mut list = vec![
        message(1).int(-1),
        message(2).int(-1),
        extension(2).int(-1),
        new().int(EXTENSION).raw(PLAYER_FINISH).int(-1),
        // the length isn't whole, or not there
        message(1).raw(&[0xc0]),
        message(1),
        Body::new(1).int(MESSAGE),
        extension(2).raw(&[0xc0]),
        extension(2),
        new().int(EXTENSION).raw(&UNKNOWN[..15]),
        // overlong and padded, and the same of 0
        message(1).raw(&[0xc0, 0x00]),
        message(1).raw(&[0x80, 0x80, 0x80, 0x80, 0x10]),
        message(1).raw(&[0x80, 0x00]),
        message(1).raw(&[0x80, 0x80, 0x80, 0x80, 0x20]),
        extension(1).int(-1),
    ];
    list.extend(windows::smallest());
    list.into_iter().map(Body::done).collect()
}

/// All else, each once.
pub fn others() -> Vec<Vec<u8>> {
    let bodies = [
        forms(),
        identifiers(),
        magnitudes(),
        behind(),
        not_negative(),
        before(),
        clients(),
        refused_first(),
        in_data(),
        payloads(),
        windows::bodies(),
    ];
    let mut seen = HashSet::new();
    let inputs = bodies.into_iter().flatten().map(Body::done);
    inputs.filter(|input| seen.insert(input.clone())).collect()
}

/// Every form, and without its last byte.
fn forms() -> Vec<Body> {
    let mut list = Vec::new();
    for value in [-1, -64, -65, LEAST] {
        for form in integer::forms(value) {
            let cut = &form[..form.len() - 1];
            for head in HEADS {
                list.push(head.add(new()).raw(&form).finish());
                list.push(head.add(new()).raw(cut));
            }
        }
    }
    list
}

/// Every known identifier, with a whole payload behind the length.
fn identifiers() -> Vec<Body> {
    let mut random = Random::new(&[30]);
    let mut list = Vec::new();
    for extension in &EXTENSIONS {
        let payload = extension.payload(5, &mut random);
        let head = Head::Extension(extension.identifier);
        list.push(begun(new(), head, -1).raw(&payload).finish());
        let size = payload.len() as i32;
        let behind = begun(new().join(3), head, -size).raw(&payload);
        list.push(behind.join(1).finish());
    }
    list
}

/// As many bytes behind the length as it has without its sign, and as its digits say.
fn magnitudes() -> Vec<Body> {
    let mut list = Vec::new();
    for size in [1, 2, 3, 63, 64, 65, 100] {
        for head in HEADS {
            for length in [-size, -1 - size] {
                let data = vec![0x78; size as usize];
                list.push(begun(new(), head, length).raw(&data).join(1).finish());
            }
        }
    }
    list
}

fn behind() -> Vec<Body> {
    let behind: [&[u8]; 8] = [
        &[],
        &[0x00],
        &[0x80],
        &[0x47, 0x01],
        &[0x00, 0x00, 0x00],
        &[0xff; 20],
        &[0x47, 0x01, 0x40],
        &[0x46, 0x00, 0x01, 0x78, 0x40],
    ];
    let mut list = Vec::new();
    for bytes in behind {
        for head in HEADS {
            for length in [-1, LEAST] {
                list.push(begun(new(), head, length).raw(bytes));
            }
        }
    }
    list
}

/// Lengths of 0 and above: short by a byte, by more, and not at all.
fn not_negative() -> Vec<Body> {
    let mut list = Vec::new();
    for head in HEADS {
        for (length, given) in [
            (1, 0),
            (3, 2),
            (64, 63),
            (65536, 8),
            (MOST, 8),
            (MOST - 1, 0),
        ] {
            list.push(begun(new(), head, length).raw(&vec![0x40; given]));
        }
        for length in [0, 1, 3, 64] {
            let data = vec![0x40; length as usize];
            list.push(begun(new(), head, length).raw(&data).finish());
        }
        for form in integer::forms(0) {
            list.push(head.add(new()).raw(&form).finish());
        }
    }
    list
}

/// Behind records that leave a tick open, or none; the kind becomes pending where it starts one.
fn before() -> Vec<Body> {
    let mut list = Vec::new();
    for head in HEADS {
        let befores = [
            new().join(0),
            new().skip(0),
            new().join(0).skip(3),
            new().skip(3).skip(4),
            new().player_new(5, 1, 2),
            new().player_new(5, 1, 2).skip(0),
            new().player_new(5, 1, 2).player_diff(5, 3, 4),
            new().player_new(5, 1, 2).player_old(5),
            new().input_new(3, &TEN).input_diff(3, &TEN),
            new().message(9, b"abc").message(8, b""),
            new().extension(&UNKNOWN, b"abc").player_finish(9, 5),
            new().drop(2, b"bye"),
            new().skip(MOST - 1),
            new().skip(MOST - 1).join(2),
            new().skip(MOST - 1).player_new(5, 1, 2),
        ];
        for before in befores {
            list.push(begun(before, head, -1).join(100).finish());
        }
    }
    list
}

/// The client of such a Message raises nothing.
fn clients() -> Vec<Body> {
    let mut list = Vec::new();
    for client in [LEAST, -1, 1, 63, 127, 128, MOST] {
        let head = Head::Message(client);
        list.push(begun(new(), head, -1).finish());
        list.push(begun(new().join(2), head, LEAST).finish());
    }
    list
}

/// Refused, or finished, before the length is come to.
fn refused_first() -> Vec<Body> {
    let command = Command {
        client: 0,
        flags: 0,
        name: b"x",
        count: -1,
        arguments: &[],
    };
    let mut list = Vec::new();
    for head in HEADS {
        let befores = [
            new().int(-12),
            new().skip(-1),
            new().skip(MOST),
            new().command(&command),
            new().player_new(-1, 0, 0),
            new().player_new(128, 0, 0),
            new().player_new(1, 0, 0).player_new(1, 0, 0),
            new().player_diff(1, 0, 0),
            new().player_old(1),
            new().input_diff(1, &TEN),
            new().join(0).finish(),
            Body::new(1),
            Body::new(1).join(0),
        ];
        for before in befores {
            list.push(begun(before, head, -1).finish());
        }
    }
    list
}

/// Bytes of such a record in data, in strings and as numbers.
fn in_data() -> Vec<Body> {
    let record = [0x46, 0x00, 0x40];
    vec![
        new().message(0, &record).finish(),
        new().extension(&UNKNOWN, &record).finish(),
        new().extension(&EXTENSIONS[0].identifier, &record).finish(),
        new().message(0, &[0x40]).extension(&UNKNOWN, &[0x40]),
        new().drop(0, &[0x46]).finish(),
        new().drop(0, &[0x46, 0x40]).finish(),
        new().message(0, b"").message(-1, b"").finish(),
        new().player_new(6, 70, 0).player_diff(6, -7, -1).finish(),
        new().ints(&[MESSAGE, 0, 4]).raw(&record),
        new().int(EXTENSION).raw(&UNKNOWN).int(4).raw(&record),
        new().extension(&UNKNOWN, &record[..2]).finish(),
    ]
}

/// Payloads of negative numbers: whole, and with one alone, which runs out where there are more fields.
fn payloads() -> Vec<Body> {
    let mut random = Random::new(&[31]);
    let mut list = Vec::new();
    for extension in &EXTENSIONS {
        let payload = extension.payload(-1, &mut random);
        let identifier = &extension.identifier;
        list.push(new().extension(identifier, &payload).finish());
        list.push(new().join(1).extension(identifier, &[0x40]).finish());
    }
    list
}
