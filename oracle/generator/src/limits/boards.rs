//! What the board refuses and what it allows; sums that pass the ends of 32 bits.

use crate::body::Body;

const TEN: [i32; 10] = [9, 8, 7, 6, 5, 4, 3, 2, 1, 0];

pub fn inputs(version: u8) -> Vec<Vec<u8>> {
    let new = || Body::new(version);
    let bodies = [players(new), held_inputs(new), sums(new), all_clients(new)];
    bodies.into_iter().flatten().map(Body::done).collect()
}

fn players(new: impl Fn() -> Body) -> Vec<Body> {
    vec![
        new().player_new(0, 3, 4).player_new(0, 5, 6),
        new()
            .player_new(0, 3, 4)
            .player_new(0, 5, 6)
            .player_diff(0, 1, 1)
            .finish(),
        new()
            .player_new(0, 3, 4)
            .skip(0)
            .player_new(0, 3, 4)
            .finish(),
        new()
            .player_new(0, 3, 4)
            .player_new(1, 3, 4)
            .player_new(1, 3, 4)
            .finish(),
        new().player_diff(0, 1, 1).finish(),
        new().player_new(1, 0, 0).player_diff(0, 1, 1).finish(),
        new().player_new(0, 0, 0).player_diff(1, 1, 1).finish(),
        new()
            .player_new(0, 0, 0)
            .player_old(0)
            .player_diff(0, 1, 1)
            .finish(),
        new().player_old(0).finish(),
        new()
            .player_new(0, 9, 9)
            .player_old(0)
            .player_old(0)
            .finish(),
        new()
            .player_new(0, 9, 9)
            .player_old(0)
            .player_new(0, 8, 8)
            .player_old(0)
            .finish(),
        new()
            .player_new(0, 0, 0)
            .player_new(1, 0, 0)
            .player_old(0)
            .player_old(1)
            .finish(),
    ]
}

fn held_inputs(new: impl Fn() -> Body) -> Vec<Body> {
    vec![
        new().input_diff(0, &TEN).finish(),
        new().input_new(1, &TEN).input_diff(0, &TEN).finish(),
        new()
            .input_new(0, &TEN)
            .input_diff(0, &TEN)
            .input_diff(0, &TEN)
            .finish(),
        new().input_new(0, &TEN).input_new(0, &TEN).finish(),
        new()
            .input_new(0, &TEN)
            .input_new(0, &[0; 10])
            .input_diff(0, &TEN)
            .finish(),
        new()
            .player_new(0, 1, 1)
            .input_new(0, &TEN)
            .player_old(0)
            .input_diff(0, &TEN)
            .finish(),
        new()
            .player_new(0, 1, 1)
            .input_new(0, &TEN)
            .player_old(0)
            .player_new(0, 2, 2)
            .input_diff(0, &TEN)
            .finish(),
        new()
            .input_new(5, &TEN)
            .input_new(4, &TEN)
            .input_diff(5, &TEN)
            .player_new(4, 0, 0)
            .finish(),
    ]
}

fn sums(new: impl Fn() -> Body) -> Vec<Body> {
    const MOST: i32 = i32::MAX;
    const LEAST: i32 = i32::MIN;
    let mut list = Vec::new();
    for (start, change) in [
        (MOST, 1),
        (MOST, MOST),
        (LEAST, -1),
        (LEAST, LEAST),
        (MOST, LEAST),
        (-1, LEAST),
        (0, LEAST),
    ] {
        list.push(
            new()
                .player_new(0, start, change)
                .player_diff(0, change, start)
                .player_diff(0, 1, -1)
                .finish(),
        );
        list.push(
            new()
                .input_new(0, &[start; 10])
                .input_diff(0, &[change; 10])
                .finish(),
        );
    }
    list
}

/// Every client from 0 to 127 at once, then one more.
fn all_clients(new: impl Fn() -> Body) -> Vec<Body> {
    let full = || {
        (0..128).fold(new(), |body, client| {
            body.player_new(client, client, -client)
        })
    };
    let typed = || (0..128).fold(full(), |body, client| body.input_new(client, &[client; 10]));
    let moved = || {
        (0..128).fold(typed(), |body, client| {
            body.player_diff(client, -client, client)
        })
    };
    let left = || {
        (0..128)
            .rev()
            .fold(moved(), |body, client| body.player_old(client))
    };
    vec![
        full().finish(),
        moved().finish(),
        left().finish(),
        full().player_new(128, 0, 0).finish(),
    ]
}
