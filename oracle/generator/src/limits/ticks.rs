//! Ticks: how they begin and end, and the largest one.

use crate::body::Body;
use crate::random::Random;

const MOST: i32 = i32::MAX;

pub fn inputs(version: u8) -> Vec<Vec<u8>> {
    let new = || Body::new(version);
    let bodies = [
        beginnings(new),
        skips(new),
        clients_in_a_tick(new),
        largest(new),
    ];
    bodies.into_iter().flatten().map(Body::done).collect()
}

fn beginnings(new: impl Fn() -> Body) -> Vec<Body> {
    vec![
        new(),
        new().finish(),
        new().finish().finish(),
        new().finish().raw(&[0x80]),
        new().join(0).finish().join(1),
        new().join(0),
        new().int(-12),
        new().int(-13).finish(),
        new().int(i32::MIN),
        new().join(3).int(-12),
        new().join(3).int(-100).finish(),
        new().skip(2).int(-12),
        new().player_new(0, 1, 2).int(-12),
        new().raw(&[0x80]),
        new().raw(&[0x42]),
        new().raw(&[0x43, 0x80]),
        new().raw(&[0x42, 0x00]),
    ]
}

fn skips(new: impl Fn() -> Body) -> Vec<Body> {
    vec![
        new().skip(0).finish(),
        new()
            .skip(2)
            .player_new(0, 10, 20)
            .player_diff(0, 1, -1)
            .finish(),
        new()
            .player_new(5, 0, 0)
            .skip(0)
            .player_new(2, 0, 0)
            .finish(),
        new()
            .player_new(5, 0, 0)
            .skip(0)
            .player_new(5, 0, 0)
            .finish(),
        new()
            .player_new(5, 0, 0)
            .skip(0)
            .player_new(6, 0, 0)
            .finish(),
        new()
            .player_new(5, 0, 0)
            .skip(0)
            .skip(0)
            .player_diff(5, 1, 1)
            .finish(),
        new().player_new(5, 0, 0).skip(4).skip(7).join(1).finish(),
        new().skip(1).skip(1).skip(1).finish(),
        new().skip(1).skip(1).skip(1).join(0).finish(),
        new().join(0).skip(1).join(0).skip(1).skip(1).finish(),
        new().skip(-1).finish(),
        new().skip(i32::MIN).finish(),
        new().join(0).skip(-1).finish(),
        new().join(0).skip(-1000),
        new().raw(&[0x41]),
        new().raw(&[0x41, 0x80]),
        new().join(0).raw(&[0x41]),
    ]
}

fn clients_in_a_tick(new: impl Fn() -> Body) -> Vec<Body> {
    let two = || new().player_new(3, 0, 0).player_new(7, 0, 0);
    vec![
        two().player_diff(3, 1, 1).player_diff(7, 1, 1).finish(),
        two().player_diff(7, 1, 1).finish(),
        two().player_diff(7, 1, 1).player_diff(3, 1, 1).finish(),
        two().player_old(7).player_old(3).finish(),
        two()
            .player_old(3)
            .player_old(7)
            .player_new(7, 2, 2)
            .finish(),
        two()
            .join(0)
            .input_new(0, &[0; 10])
            .player_diff(3, 2, 2)
            .finish(),
        two()
            .join(0)
            .input_new(9, &[0; 10])
            .player_new(8, 2, 2)
            .finish(),
        two().player_diff(7, 0, 0).raw(&[0x03]),
        two().raw(&[0x43, 0x03]),
        new()
            .player_new(0, 0, 0)
            .player_diff(0, 0, 0)
            .player_diff(0, 0, 0)
            .player_old(0)
            .finish(),
    ]
}

fn largest(new: impl Fn() -> Body) -> Vec<Body> {
    let last = || new().skip(MOST - 1);
    vec![
        last().finish(),
        new().skip(MOST).finish(),
        new()
            .skip(MOST - 2)
            .player_new(0, 0, 0)
            .player_diff(0, 1, 1)
            .finish(),
        new()
            .skip(MOST - 2)
            .player_new(0, 0, 0)
            .player_diff(0, 1, 1)
            .player_diff(0, 1, 1)
            .finish(),
        last().join(1).finish(),
        last().player_new(0, 0, 0).finish(),
        last().player_new(0, 0, 0).player_diff(0, 1, 1).finish(),
        last().player_new(3, 0, 0).player_new(2, 1, 1),
        last().player_new(3, 0, 0).player_new(4, 1, 1).finish(),
        last().skip(0),
        last().skip(MOST),
        last().skip(-1),
        last().join(0).skip(0),
        last().join(0).skip(MOST).finish(),
        new().join(0).skip(MOST - 1).finish(),
        new().join(0).skip(MOST).finish(),
        new().join(0).skip(MOST - 1).skip(0).finish(),
        new().join(0).skip(MOST - 1).join(0).finish(),
        new().skip(0).skip(MOST - 2).finish(),
        new().skip(0).skip(MOST - 1).finish(),
        new().skip(1 << 30).skip((1 << 30) - 3).finish(),
        new().skip(1 << 30).skip((1 << 30) - 2).finish(),
        new().skip(1 << 30).skip(1 << 30).finish(),
        new()
            .player_new(5, 0, 0)
            .skip(MOST - 1)
            .player_diff(5, 0, 0)
            .finish(),
        new()
            .player_new(5, 0, 0)
            .skip(MOST - 2)
            .player_diff(5, 0, 0)
            .finish(),
        last().raw(&[0x41]),
        odd_skips(new()),
    ]
}

/// Skips with lengths in odd forms, together below the largest tick.
fn odd_skips(body: Body) -> Body {
    let mut random = Random::new(&[7]);
    let body = body.with_odd_forms(1, &mut random);
    (0..40).fold(body, |body, dt| body.skip(dt * 1000)).finish()
}
