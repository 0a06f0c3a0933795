//! Client numbers in every record that has one.

use crate::body::Body;
use crate::record::Command;

#[rustfmt::skip]
const CLIENTS: [i32; 24] = [
    i32::MIN, -2147483647, -129, -128, -65, -64, -5, -1, 0, 1, 62, 63, 64, 65,
    126, 127, 128, 129, 255, 256, 1024, 65536, 2147483646, i32::MAX,
];

const TEN: [i32; 10] = [1, 2, 3, -4, 5, 6, -7, 8, 9, 10];

pub fn inputs(version: u8) -> Vec<Vec<u8>> {
    let mut list = Vec::new();
    for client in CLIENTS {
        list.extend(records(version, client).into_iter().map(Body::done));
        if client >= 0 {
            list.extend(changes(version, client).into_iter().map(Body::done));
        }
    }
    list
}

/// Each record once, outside a tick and inside one.
fn records(version: u8, client: i32) -> Vec<Body> {
    let command = Command {
        client,
        flags: -1,
        name: b"say",
        count: 1,
        arguments: &[b"hi".to_vec()],
    };
    let mut list = Vec::new();
    for inside in [false, true] {
        let new = || {
            if inside {
                Body::new(version).join(2)
            } else {
                Body::new(version)
            }
        };
        list.extend([
            new().player_new(client, 3, 4).finish(),
            new().player_new(client, 3, 4).player_new(0, 1, 1).finish(),
            new().player_old(client).finish(),
            new().input_new(client, &TEN).finish(),
            new().input_diff(client, &TEN).finish(),
            new().message(client, b"abc").finish(),
            new().join(client).finish(),
            new().drop(client, b"bye").finish(),
            new().command(&command).finish(),
        ]);
    }
    list
}

/// Records for a client that is present and has inputs, and players around it.
fn changes(version: u8, client: i32) -> Vec<Body> {
    let new = || Body::new(version);
    let below = (client - 1).max(0);
    vec![
        new().player_diff(client, 1, 1).finish(),
        new()
            .player_new(client, 3, 4)
            .player_diff(client, -5, 6)
            .player_old(client)
            .finish(),
        new()
            .player_new(client, 3, 4)
            .player_old(client)
            .player_new(client, 7, 8)
            .finish(),
        new()
            .player_new(below, 3, 4)
            .player_new(client, 7, 8)
            .player_diff(below, 1, 1)
            .finish(),
        new()
            .input_new(client, &TEN)
            .input_diff(client, &TEN)
            .input_new(client, &[0; 10])
            .finish(),
        new()
            .player_new(client, 0, 0)
            .player_new(client, 5, 6)
            .finish(),
    ]
}
