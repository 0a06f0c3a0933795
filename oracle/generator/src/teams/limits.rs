//! The limits of teams, each by hand.

mod reels;

use crate::body::Body;
use crate::extension;
use crate::extension::PLAYER_TEAM;
use crate::finishes;
use crate::integer;
use crate::record::EXTENSION;

const LEAST: i32 = i32::MIN;
const MOST: i32 = i32::MAX;

const CLIENTS: [i32; 15] = [
    LEAST, -129, -128, -2, -1, 0, 1, 63, 64, 126, 127, 128, 129, 256, MOST,
];
const TEAMS: [i32; 11] = [LEAST, LEAST + 1, -65, -64, -1, 0, 1, 63, 64, MOST - 1, MOST];
const TEN: [i32; 10] = [1, 2, 3, -4, 5, 6, 7, 8, 9, 10];

/// The smallest bodies that tell what PlayerTeam does: a team of 0 and none, the clients at the ends, the last team of two, PlayerOld,
/// and version 1, which has no extensions.
pub fn smallest() -> Vec<Vec<u8>> {
    let bodies = vec![
        of(&[(0, 0)]).finish(),
        of(&[(0, 1)]),
        of(&[(127, LEAST)]).finish(),
        of(&[(128, 1)]).finish(),
        of(&[(-1, 1)]).finish(),
        of(&[(0, 1), (0, 2)]).finish(),
        in_ticks(&[(0, 1), (0, 2)]).finish(),
        one(new().player_new(3, 0, 0)).player_old(3).finish(),
        Body::new(1).player_team(0, 1).finish(),
    ];
    bodies.into_iter().map(Body::done).collect()
}

/// All else.
pub fn others() -> Vec<Vec<u8>> {
    let bodies = [
        clients(),
        teams(),
        places(),
        players(),
        payloads(),
        identifiers(),
        refusals(),
        reels::bodies(),
    ];
    let mut list: Vec<Vec<u8>> = bodies.into_iter().flatten().map(Body::done).collect();
    list.push([vec![3], of(&[(0, 0)]).finish().done()].concat());
    list.extend(cuts());
    list
}

fn new() -> Body {
    Body::new(2)
}

fn join_teams(body: Body, teams: &[(i32, i32)]) -> Body {
    let add = |body: Body, &(client, team): &(i32, i32)| body.player_team(client, team);
    teams.iter().fold(body, add)
}

/// Clients with their teams, all in one tick.
fn of(teams: &[(i32, i32)]) -> Body {
    join_teams(new(), teams)
}

/// The same, each in a tick of its own, from 0 on.
fn in_ticks(teams: &[(i32, i32)]) -> Body {
    let add = |body: Body, &(client, team): &(i32, i32)| body.player_team(client, team).skip(0);
    teams.iter().fold(new(), add)
}

fn one(body: Body) -> Body {
    body.player_team(3, 50)
}

fn clients() -> Vec<Body> {
    let mut list = Vec::new();
    for client in CLIENTS {
        list.push(of(&[(client, 10)]).finish());
        list.push(Body::new(1).join(3).player_team(client, 10).finish());
        list.push(in_ticks(&[(client, 10), (client, 9), (client, 9)]).finish());
        // beside clients whose teams it must not touch
        list.push(of(&[(0, 5), (127, 6), (client, 4), (0, 7), (127, 5)]).finish());
        list.push(in_ticks(&[
            (0, 5),
            (127, 6),
            (client, 4),
            (client, 3),
            (127, 5),
        ]));
    }
    list.push(of(&CLIENTS.map(|client| (client, client))).finish());
    list.push(in_ticks(&CLIENTS.map(|client| (client, -1 - client))).finish());
    list.extend(everyone());
    list
}

/// All clients from -3 to 130, and again in other teams.
fn everyone() -> Vec<Body> {
    let all = -3..=130;
    let rising: Vec<(i32, i32)> = all.clone().map(|client| (client, client)).collect();
    let one: Vec<(i32, i32)> = all.clone().map(|client| (client, MOST)).collect();
    let mixed: Vec<(i32, i32)> = all.map(|client| (client, client * 37 % 11)).collect();
    let mut list = Vec::new();
    for teams in [&rising, &one, &mixed] {
        let back: Vec<(i32, i32)> = teams.iter().rev().copied().collect();
        list.push(of(teams).finish());
        list.push(join_teams(of(&back).skip(0), &rising).finish());
        list.push(join_teams(of(teams).skip(0), &one).skip(0).join(0).finish());
    }
    list
}

/// Each pair of teams: of one client and of two, in one tick and in two.
fn teams() -> Vec<Body> {
    let mut list = Vec::new();
    for first in TEAMS {
        list.push(of(&[(5, first)]).finish());
        for second in TEAMS {
            list.push(in_ticks(&[(5, first), (5, second)]).join(0).finish());
            list.push(of(&[(5, first), (4, second), (5, second)]).finish());
        }
    }
    list.push(of(&TEAMS.map(|team| (9, team))).finish());
    list.push(in_ticks(&TEAMS.map(|team| (9, -1 - team))).finish());
    list
}

/// Where in a tick the record stands: it starts one, stands behind TickSkips, between players and behind one that ends the tick; its client
/// ends none. The largest tick; records behind the end.
fn places() -> Vec<Body> {
    let player = |body: Body, client| body.player_new(client, 1, 2);
    let bodies = vec![
        one(new()),
        one(new().skip(0)),
        one(new().skip(0).skip(0)),
        one(new().join(0).skip(0)),
        one(new().join(0).skip(5).skip(5)),
        one(one(new()).skip(0)),
        one(one(new().skip(7))),
        one(player(new(), 5).player_diff(5, 1, 1)),
        player(one(player(new(), 5)), 6),
        one(player(new(), 2)).player_diff(2, 1, 1),
        player(one(player(new(), 2)), 1),
        one(player(player(new(), 5).skip(0), 2)),
        player(one(player(new(), 5).skip(0)), 2),
        player(one(player(new(), 3)), 3),
        one(new().skip(MOST - 1)),
        one(one(new()).skip(MOST - 1)),
        one(new().skip(MOST - 1)).player_team(3, 51),
    ];
    let mut list = Vec::new();
    for body in bodies {
        // the same cut before its end
        let whole = body.done();
        list.push(Body::bare().raw(&whole));
        list.push(Body::bare().raw(&whole).skip(0).join(1));
        list.push(Body::bare().raw(&whole).player_team(3, 51).finish());
    }
    list.push(one(new()).finish().player_team(3, 51).finish());
    list.push(one(new()).finish().raw(&[0x80]));
    list
}

/// Nothing but PlayerTeam changes a team: players that come, move and go, inputs, joins and drops, in one tick and in more.
fn players() -> Vec<Body> {
    let mut list = Vec::new();
    for client in [0, 3, 63, 64, 126, 127] {
        let with = |body: Body, team| body.player_team(client, team);
        let come = || new().player_new(client, 7, 8);
        list.push(with(come(), 1).player_old(client).finish());
        list.push(with(come(), 1).skip(0).player_old(client).join(0).finish());
        list.push(with(come().player_old(client), 1).skip(0).join(0).finish());
        let back = with(come(), 1).player_old(client).player_new(client, 9, 9);
        list.push(with(back, 2).skip(0).player_old(client).finish());
        list.push(
            with(new(), 1)
                .player_new(client, 7, 8)
                .player_diff(client, 1, 1),
        );
        list.push(
            with(with(come(), 1).input_new(client, &TEN), 0)
                .skip(0)
                .input_diff(client, &TEN)
                .finish(),
        );
        list.push(
            with(come(), 1)
                .drop(client, b"")
                .join(client)
                .skip(0)
                .join(9),
        );
        // refusals that leave other things on the board: 13 to 16
        list.push(with(come(), 1).skip(0).player_new(client, 0, 0));
        list.push(with(new(), 1).player_diff(client, 0, 0));
        list.push(with(new(), 1).skip(0).player_old(client));
        list.push(with(new(), 1).input_diff(client, &TEN));
    }
    list
}

/// Spare bytes, cut payloads, lengths that don't fit and every form of a number.
fn payloads() -> Vec<Body> {
    let payload = Body::bare().ints(&[100, -1000]).done();
    let before = || new().player_team(8, 20).player_team(3, 30).skip(0);
    let mut list = Vec::new();
    for spare in [&[0x40][..], &[0x80], &[0, 0, 0], &[0xff; 40]] {
        let longer = [&[3, 9], spare].concat();
        let body = before().extension(PLAYER_TEAM, &longer);
        list.push(body.player_team(8, 19).finish());
    }
    for end in 0..payload.len() {
        let body = before().extension(PLAYER_TEAM, &payload[..end]);
        list.push(body.player_team(8, 19).finish());
    }
    for length in [-1, LEAST, 1, 2, 3, 100, MOST] {
        let begun = before().int(EXTENSION).raw(PLAYER_TEAM).int(length);
        list.push(begun.raw(&[3, 9]).player_team(8, 19).finish());
    }
    for number in [0, 5, -1, 64, 127, 128, LEAST, MOST] {
        for form in integer::forms(number) {
            let as_client = [&form[..], &[9]].concat();
            let as_team = [&[3], &form[..]].concat();
            list.push(before().extension(PLAYER_TEAM, &as_client).finish());
            list.push(before().extension(PLAYER_TEAM, &as_team).finish());
        }
    }
    list
}

/// Extensions that are like PlayerTeam but for the identifier.
fn identifiers() -> Vec<Body> {
    let around = |identifier: &[u8; 16]| {
        let begun = new().player_team(3, 9).skip(0);
        let same_shape = begun
            .extension(identifier, &[3, 5])
            .extension(identifier, &[4, 5]);
        same_shape
            .extension(identifier, &[0x40, 5])
            .player_team(3, 8)
            .finish()
    };
    let near = (0..16).map(|at| {
        let mut changed = *PLAYER_TEAM;
        changed[at] ^= 1 << (at % 8);
        around(&changed)
    });
    let like = extension::like_team().into_iter().map(around);
    near.chain(like).collect()
}

/// Each refusal, with teams before it and behind it.
fn refusals() -> Vec<Body> {
    let behind = |body: Body| join_teams(body, &[(1, 3), (2, 3), (-1, 3)]).finish();
    let mut list = Vec::new();
    for refused in finishes::refused() {
        list.push(behind(of(&[(1, 5), (-1, 5)]).raw(&refused)));
        list.push(behind(of(&[(1, 5), (2, 4)]).skip(0).raw(&refused)));
        list.push(behind(new().raw(&refused)));
    }
    list
}

/// A body with teams in each of three ticks, cut behind each byte.
fn cuts() -> Vec<Vec<u8>> {
    let whole = of(&[(1, 500)]).skip(0).player_team(-1, 4);
    let whole = whole.player_team(1, -500).skip(0).player_team(127, -501);
    let whole = whole.finish().done();
    (1..whole.len()).map(|end| whole[..end].to_vec()).collect()
}
