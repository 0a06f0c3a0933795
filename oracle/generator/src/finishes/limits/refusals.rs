//! Refusals after finishes, in the same tick and in the next, and bodies that are cut.

use super::new;
use super::LEAST;
use super::MOST;
use crate::body::Body;
use crate::record::Command;

const TEN: [i32; 10] = [0; 10];

/// Each refusal, with finishes before it and behind it. Those behind it would be the lowest.
pub fn bodies() -> Vec<Body> {
    let mut list = Vec::new();
    for refused in refused() {
        list.push(behind(
            new().player_finish(1, 5).player_finish(-1, 5).raw(&refused),
        ));
        list.push(behind(
            new()
                .player_finish(1, 5)
                .player_finish(2, 4)
                .skip(0)
                .raw(&refused),
        ));
        list.push(behind(new().raw(&refused)));
        list.push(behind(
            new()
                .player_finish(128, 4)
                .player_finish(1, 5)
                .join(0)
                .skip(3)
                .raw(&refused),
        ));
    }
    list
}

fn behind(body: Body) -> Body {
    body.player_finish(1, 3)
        .player_finish(2, 3)
        .player_finish(-1, 3)
        .finish()
}

/// Records that are refused, where no client is present: 4 to 8, 10 and 12 to 16. What runs out is among the cuts.
pub fn refused() -> Vec<Vec<u8>> {
    let bare = Body::bare;
    let command = |count| {
        bare().command(&Command {
            client: 0,
            flags: 0,
            name: b"",
            count,
            arguments: &vec![Vec::new(); 17],
        })
    };
    let list = [
        bare().int(-12),
        bare().int(LEAST),
        bare().skip(-1),
        bare().skip(LEAST),
        command(-1),
        command(17),
        bare().player_new(-1, 0, 0),
        bare().player_old(-1),
        bare().input_new(-1, &TEN),
        bare().input_diff(LEAST, &TEN),
        bare().player_new(128, 0, 0),
        bare().input_new(128, &TEN),
        bare().player_new(MOST, 0, 0),
        bare().skip(MOST),
        bare().player_new(1, 0, 0).player_new(1, 0, 0),
        bare()
            .player_new(1, 0, 0)
            .skip(MOST - 1)
            .player_diff(1, 0, 0),
        bare().player_diff(1, 0, 0),
        bare().player_old(1),
        bare().input_diff(1, &TEN),
    ];
    list.into_iter().map(Body::done).collect()
}

/// A body with a finish in each of three ticks, cut behind each byte.
pub fn cuts() -> Vec<Vec<u8>> {
    let whole = new()
        .player_finish(1, 500)
        .skip(0)
        .player_finish(-1, 4)
        .player_finish(1, -500);
    let whole = whole.skip(0).player_finish(127, -501).finish().done();
    (1..whole.len()).map(|end| whole[..end].to_vec()).collect()
}
