//! Extensions: payloads that are complete, cut, followed by spare bytes, or of a length that can't be.

use crate::body::Body;
use crate::extension::Extension;
use crate::extension::EXTENSIONS;
use crate::integer;
use crate::random::Random;
use crate::record::EXTENSION;

const CLIENTS: [i32; 7] = [0, 5, 127, 128, -1, i32::MAX, i32::MIN];

pub fn inputs(version: u8) -> Vec<Vec<u8>> {
    let new = || Body::new(version);
    let mut list = unknown(new);
    for extension in &EXTENSIONS {
        list.extend(payloads(new, extension));
        list.extend(near_identifiers(new, extension));
    }
    list.extend(lengths(new));
    list.into_iter().map(Body::done).collect()
}

fn payloads(new: impl Fn() -> Body, extension: &Extension) -> Vec<Body> {
    let mut random = Random::new(&[20, u64::from(extension.identifier[0])]);
    let mut list = Vec::new();
    for client in CLIENTS {
        let payload = extension.payload(client, &mut random);
        list.push(
            new()
                .extension(&extension.identifier, &payload)
                .join(1)
                .finish(),
        );
        let spare = [payload, vec![0x40, 0x00, 0x40]].concat();
        list.push(
            new()
                .join(0)
                .extension(&extension.identifier, &spare)
                .join(1)
                .finish(),
        );
    }
    let payload = extension.payload(9, &mut random);
    for end in 0..payload.len() {
        list.push(
            new()
                .extension(&extension.identifier, &payload[..end])
                .join(1)
                .finish(),
        );
    }
    list
}

/// The identifier with one byte changed, or cut.
fn near_identifiers(new: impl Fn() -> Body, extension: &Extension) -> Vec<Body> {
    let mut random = Random::new(&[21, u64::from(extension.identifier[0])]);
    let payload = extension.payload(3, &mut random);
    let near = (0..16).map(|at| {
        let mut changed = extension.identifier;
        changed[at] ^= 1 << random.below(8);
        new().extension(&changed, &payload).finish()
    });
    let mut list: Vec<Body> = near.collect();
    for end in [0, 1, 15] {
        list.push(new().int(EXTENSION).raw(&extension.identifier[..end]));
    }
    list.push(new().int(EXTENSION).raw(&extension.identifier));
    list
}

fn unknown(new: impl Fn() -> Body) -> Vec<Body> {
    vec![
        new().extension(&[0; 16], b"").finish(),
        new().extension(&[0xff; 16], b"abc").finish(),
        new().join(0).extension(&[1; 16], &[0x40; 100]).finish(),
        new()
            .extension(&[2; 16], b"a")
            .extension(&[2; 16], b"b")
            .finish(),
        new()
            .skip(2)
            .extension(&[2; 16], b"a")
            .skip(2)
            .extension(&[2; 16], b"b")
            .finish(),
        new()
            .player_new(0, 0, 0)
            .extension(&[2; 16], b"a")
            .player_diff(0, 1, 1)
            .finish(),
    ]
}

fn lengths(new: impl Fn() -> Body) -> Vec<Body> {
    let mut list = Vec::new();
    for identifier in [EXTENSIONS[0].identifier, EXTENSIONS[3].identifier, [9; 16]] {
        let begun = || new().int(EXTENSION).raw(&identifier);
        for length in [-1, i32::MIN, i32::MAX, 3, 2, 1] {
            list.push(begun().int(length).raw(&[0x01, 0x02]));
        }
        for form in integer::forms(2) {
            list.push(begun().raw(&form).raw(&[0x01, 0x02, 0x40]));
        }
    }
    list
}
