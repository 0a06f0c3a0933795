//! Teams on a reel, which keeps 512 events, and around the end of a window of 65536 bytes.

use super::new;
use super::LEAST;
use super::MOST;
use crate::body::Body;

const WINDOW: usize = 65536;

pub fn bodies() -> Vec<Body> {
    let mut list = Vec::new();
    // the first change of a team is one of the last 512 events, or isn't; the former one of client 3 is 7
    let begun = || new().player_team(3, 7).skip(0).player_team(3, 8);
    for joins in 503..=512 {
        list.push(joined(begun(), joins).finish());
    }
    // behind these the team is changed again
    for joins in [400, 505, 509, 600] {
        let later = joined(begun(), joins).skip(0).player_team(3, 9);
        list.push(later.player_team(4, 7).skip(0).player_team(3, 7).finish());
    }
    // full of them, of one client and of all; in ticks and without
    for (clients, ticks) in [(1, 0), (1, 1), (1, 7), (128, 0), (128, 3), (128, 200)] {
        list.push(full(clients, ticks).finish());
    }
    // a record of 20 bytes begins so many behind the version byte
    for begin in [WINDOW - 21, WINDOW - 20, WINDOW - 10, WINDOW - 1, WINDOW] {
        let filled = begun().filled(1 + begin).player_team(3, 9);
        list.push(filled.skip(0).player_team(3, 10).finish());
    }
    list
}

fn joined(body: Body, joins: usize) -> Body {
    body.raw(&Body::bare().join(0).done().repeat(joins))
}

/// 700 records, each client's next team another one; a tick for so many of them, or one for all.
fn full(clients: i32, ticks: i32) -> Body {
    let ends = [LEAST, MOST, 0, -1];
    (0..700).fold(new(), |body, k: i32| {
        let team = match k % 5 {
            4 => ends[(k / 5 % 4) as usize],
            _ => k,
        };
        let body = body.player_team(k % clients, team);
        if ticks > 0 && k % ticks == 0 {
            return body.skip(0);
        }
        body
    })
}
