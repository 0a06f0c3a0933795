//! A player record, TickSkips, another player record: each of a few clients, places and forms.

use crate::body::Body;
use crate::record::JOIN;
use crate::record::TICK_SKIP;

const MOST: i32 = i32::MAX;

/// A client, the one that is remembered, and a higher one; all three are present.
const CLIENTS: [[i32; 3]; 4] = [[0, 1, 2], [4, 5, 6], [0, 63, 64], [125, 126, 127]];

#[derive(Clone, Copy)]
enum Act {
    Move,
    Leave,
    Come,
}

const ACTS: [Act; 3] = [Act::Move, Act::Leave, Act::Come];

impl Act {
    fn add(self, body: Body, client: i32) -> Body {
        match self {
            Act::Move => body.player_diff(client, 1, -1),
            Act::Leave => body.player_old(client),
            Act::Come => body.player_new(client, 8, 9),
        }
    }
}

/// The smallest bodies that tell whether a TickSkip forgets the client, and those beside them that don't.
pub fn smallest() -> Vec<Vec<u8>> {
    let new = |client| Body::new(1).player_new(client, 0, 0);
    let bodies = vec![
        new(0).skip(0).int(0),
        new(0).skip(0).player_old(0).finish(),
        new(0).skip(0).skip(0).player_old(0).finish(),
        new(5).skip(0).player_new(2, 0, 0).finish(),
        new(5).skip(0).player_new(6, 0, 0).finish(),
        new(0).player_old(0).finish(),
        Body::new(1).skip(0).player_new(0, 0, 0).finish(),
    ];
    bodies.into_iter().map(Body::done).collect()
}

/// All else.
pub fn others() -> Vec<Vec<u8>> {
    let mut list = Vec::new();
    for version in [1, 2] {
        for clients in CLIENTS {
            // two acts that remember the middle client: then it is present, or not
            for first in [Act::Move, Act::Leave] {
                let begun = || remembering(version, clients, first);
                list.extend(behind_skips(begun, clients));
                list.extend(refused(begun, clients));
            }
        }
        list.extend(nobody(version));
    }
    list.into_iter().map(Body::done).collect()
}

/// Three players, and in the next tick a record of the middle one.
fn remembering(version: u8, clients: [i32; 3], first: Act) -> Body {
    let place = |body: Body, client| body.player_new(client, 10, 20);
    let placed = clients.into_iter().fold(Body::new(version), place);
    first.add(placed, clients[1])
}

/// One to three TickSkips, with or without another record behind them, and each act of each client.
fn behind_skips(begun: impl Fn() -> Body, clients: [i32; 3]) -> Vec<Body> {
    let mut list = Vec::new();
    for skips in [&[0][..], &[70], &[0, 0], &[1, 5], &[0, 0, 0]] {
        let skipped = || skips.iter().fold(begun(), |body, dt| body.skip(*dt));
        for client in clients {
            for act in ACTS {
                list.push(act.add(skipped(), client).finish());
                list.push(act.add(skipped().join(9), client).finish());
                // a tick that is ended by a client that doesn't rise, behind the skip
                list.push(act.add(act.add(skipped(), client), client).finish());
            }
        }
    }
    list
}

/// TickSkips that are refused, by 5 and 12, or cut; what follows is not read.
fn refused(begun: impl Fn() -> Body, clients: [i32; 3]) -> Vec<Body> {
    vec![
        begun().skip(-1).player_diff(clients[1], 0, 0),
        begun().skip(MOST).player_diff(clients[1], 0, 0),
        begun().skip(0).skip(-1).player_diff(clients[1], 0, 0),
        begun().skip(0).skip(MOST).player_diff(clients[1], 0, 0),
        begun().int(TICK_SKIP),
        begun().int(TICK_SKIP).raw(&[0x80]),
        begun().skip(0).int(TICK_SKIP),
        begun().skip(0).player_diff(clients[2], 0, 0).skip(MOST - 2),
        begun().skip(0).player_diff(clients[0], 0, 0).skip(MOST - 4),
    ]
}

/// Nobody is remembered: TickSkips before the first player, alone, and behind records of no player.
fn nobody(version: u8) -> Vec<Body> {
    let new = || Body::new(version);
    let mut list = Vec::new();
    for skips in 1..=4 {
        let skipped = |body: Body| (0..skips).fold(body, |body, dt| body.skip(dt));
        list.push(skipped(new()).player_new(0, 1, 2).finish());
        list.push(skipped(new().join(3)).player_new(0, 1, 2).finish());
        list.push(skipped(new()).int(JOIN));
        list.push(skipped(new()).finish());
        list.push(skipped(new().player_new(7, 1, 2)).finish());
    }
    list
}
