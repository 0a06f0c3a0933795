//! Lines `VERSION HEX` for the records command.

use crate::body::Body;
use crate::extension;
use crate::extension::EXTENSIONS;
use crate::hex;
use crate::integer;
use crate::integer::TELLING;
use crate::noise;
use crate::play;
use crate::random::Random;
use crate::record::Command;
use crate::record::EXTENSION;
use crate::record::MESSAGE;
use std::collections::HashSet;

/// The fixed list (whole records, then each cut at every length), then random records, up to `count` lines.
pub fn record_lines(seed: u64, count: usize) -> Vec<String> {
    let mut random = Random::new(&[seed, 100]);
    let mut lines = fixed();
    lines.truncate(count);
    while lines.len() < count {
        let version = random.between(1, 2);
        lines.push(line(version, &random_record(&mut random)));
    }
    lines
}

fn line(version: i32, bytes: &[u8]) -> String {
    format!("{version} {}", hex(bytes))
}

/// Whole records in both versions, and the same followed by other bytes; then cuts at every length; then forms of lengths.
fn fixed() -> Vec<String> {
    let plain = [plain(), commands(), lengths()].concat();
    let extensions = extensions();
    let whole = [
        plain.clone(),
        extensions.clone(),
        cut_payloads(),
        integers(),
    ]
    .concat();
    let followed = whole
        .iter()
        .map(|record| [record.clone(), vec![0x40, 0x00]].concat());
    let both = whole
        .iter()
        .cloned()
        .chain(followed)
        .flat_map(|bytes| [line(1, &bytes), line(2, &bytes)]);
    let plain_cuts = cuts(&plain).map(|bytes| line(1, &bytes));
    let extension_cuts = cuts(&extensions).map(|bytes| line(2, &bytes));
    let mut seen = HashSet::new();
    both.chain(plain_cuts)
        .chain(extension_cuts)
        .chain(length_forms())
        .filter(|line| seen.insert(line.clone()))
        .collect()
}

fn cuts(records: &[Vec<u8>]) -> impl Iterator<Item = Vec<u8>> + '_ {
    records
        .iter()
        .flat_map(|record| (0..record.len()).map(|end| record[..end].to_vec()))
}

fn done(bodies: Vec<Body>) -> Vec<Vec<u8>> {
    bodies.into_iter().map(Body::done).collect()
}

/// Every kind but commands and extensions.
fn plain() -> Vec<Vec<u8>> {
    let ten = [1, -1, 64, -65, 0, 8192, i32::MAX, i32::MIN, 5, 6];
    let new = Body::bare;
    let mut list = vec![
        new().player_diff(0, 10, 20),
        new().player_diff(i32::MAX, i32::MIN, i32::MAX),
        new().finish(),
        new().message(-7, b""),
        new().message(1, &[0, 1, 0xff]),
        new().message(1, &[0x40; 70]),
        new().drop(2, b""),
        new().drop(2, b"timed out"),
        new().drop(2, &[0xff, 0x80, 1]),
    ];
    for client in [0, 5, 127, 128, -1, i32::MAX, i32::MIN] {
        list.push(new().player_new(client, -3, 70000));
        list.push(new().player_old(client));
        list.push(new().input_diff(client, &ten));
        list.push(new().input_new(client, &ten));
        list.push(new().join(client));
    }
    for dt in [0, 1, 63, 64, 2147483646, i32::MAX, -1, i32::MIN] {
        list.push(new().skip(dt));
    }
    for kind in [-12, -13, -64, -65, -1000000, i32::MIN] {
        list.push(new().int(kind));
        list.push(new().int(kind).raw(&[1, 2, 3]));
    }
    done(list)
}

fn commands() -> Vec<Vec<u8>> {
    let mut list = Vec::new();
    for (count, given) in [
        (0, 0),
        (1, 1),
        (2, 2),
        (15, 15),
        (16, 16),
        (17, 16),
        (17, 17),
        (18, 17),
        (18, 18),
    ] {
        list.push((count, given, 7));
    }
    for count in [-1, i32::MIN, i32::MAX, 100] {
        list.push((count, 18, -1));
    }
    for flags in [0, -2, i32::MIN, i32::MAX] {
        list.push((1, 1, flags));
    }
    list.into_iter()
        .map(|(count, given, flags)| command(count, given, flags))
        .collect()
}

fn command(count: i32, given: usize, flags: i32) -> Vec<u8> {
    let arguments: Vec<Vec<u8>> = (0..given).map(|at| vec![0x61; at % 3]).collect();
    let command = Command {
        client: 3,
        flags,
        name: b"tune",
        count,
        arguments: &arguments,
    };
    Body::bare().command(&command).done()
}

/// Two unknown extensions and each known one.
fn extensions() -> Vec<Vec<u8>> {
    let mut random = Random::new(&[22]);
    let mut list = vec![
        Body::bare().extension(&[0xab; 16], b""),
        Body::bare().extension(&[0; 16], b"data"),
    ];
    for extension in &EXTENSIONS {
        let payload = extension.payload(5, &mut random);
        list.push(Body::bare().extension(&extension.identifier, &payload));
    }
    done(list)
}

/// Complete extension records whose payload is cut, has spare bytes or other clients, or another identifier.
fn cut_payloads() -> Vec<Vec<u8>> {
    let mut random = Random::new(&[23]);
    let mut list = Vec::new();
    for extension in &EXTENSIONS {
        let record = |payload: &[u8]| Body::bare().extension(&extension.identifier, payload);
        for client in [-1, i32::MAX] {
            let payload = extension.payload(client, &mut random);
            list.push(record(&[payload.clone(), vec![0x00, 0x41]].concat()));
            list.push(record(&payload));
        }
        let payload = extension.payload(77, &mut random);
        list.extend((0..payload.len()).map(|end| record(&payload[..end])));
        let mut near = extension.identifier;
        near[15] ^= 1;
        list.push(Body::bare().extension(&near, &payload));
    }
    done(list)
}

fn lengths() -> Vec<Vec<u8>> {
    let mut list = Vec::new();
    for length in [-1, -64, i32::MIN, i32::MAX, 4, 3, 2] {
        list.push(Body::bare().ints(&[MESSAGE, 0, length]).raw(&[7, 8, 9]));
        let extension = Body::bare().int(EXTENSION).raw(&EXTENSIONS[3].identifier);
        list.push(extension.int(length).raw(&[7, 8, 9]));
    }
    for form in integer::forms(2) {
        list.push(Body::bare().ints(&[MESSAGE, 0]).raw(&form).raw(&[7, 8, 9]));
    }
    done(list)
}

/// Every form of negative lengths and of 0, each also without its last byte.
fn length_forms() -> Vec<String> {
    let mut list = Vec::new();
    for form in [-1, -65, i32::MIN, 0].into_iter().flat_map(integer::forms) {
        let cut = &form[..form.len() - 1];
        for form in [&form[..], cut] {
            let message = Body::bare().ints(&[MESSAGE, 0]).raw(form);
            let extension = Body::bare().int(EXTENSION).raw(&[0xab; 16]).raw(form);
            list.push(line(1, &message.done()));
            list.push(line(2, &extension.done()));
        }
    }
    list
}

/// Every form of the telling numbers as fields, and of the kinds.
fn integers() -> Vec<Vec<u8>> {
    let mut list = Vec::new();
    for value in TELLING {
        for form in integer::forms(value) {
            list.push(Body::bare().int(4).raw(&form).raw(&form));
        }
    }
    for kind in -13..=1 {
        for form in integer::forms(kind) {
            list.push(Body::bare().raw(&form).raw(&[0; 20]));
        }
    }
    done(list)
}

fn random_record(random: &mut Random) -> Vec<u8> {
    let odd = random.pick(&[0, 0, 3]);
    let body = Body::bare().with_odd_forms(odd, random);
    let client = random.number();
    let mut record = match random.below(8) {
        0..=2 => noise::careless(body, random).done(),
        3 | 4 => play::talk(body, client, true, random).done(),
        5 => extension::add_any(body, client, random).done(),
        6 => noise::telling(24, random),
        _ => random.bytes(16),
    };
    if random.one_in(4) {
        record.truncate(random.below(record.len() + 1));
    }
    if random.one_in(4) {
        let count = random.below(4);
        record.extend(random.bytes(count));
    }
    record
}
