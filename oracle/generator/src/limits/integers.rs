//! Every form of every telling number, as a kind and as a field, and integers that are cut.

use crate::body::Body;
use crate::integer;
use crate::integer::TELLING;

pub fn inputs(version: u8) -> Vec<Vec<u8>> {
    let new = || Body::new(version);
    let bodies = [fields(new), kinds(new), cuts(new)];
    bodies.into_iter().flatten().map(Body::done).collect()
}

fn fields(new: impl Fn() -> Body) -> Vec<Body> {
    let mut list = Vec::new();
    for value in TELLING {
        for form in integer::forms(value) {
            list.push(
                new()
                    .player_new(0, 0, 0)
                    .int(0)
                    .raw(&form)
                    .raw(&form)
                    .finish(),
            );
        }
    }
    list
}

/// A number as a kind, with zeros after it for whatever it needs.
fn kinds(new: impl Fn() -> Body) -> Vec<Body> {
    let mut list = Vec::new();
    for value in -14..=2 {
        for form in integer::forms(value) {
            list.push(new().raw(&form).raw(&[0; 20]));
            list.push(new().player_new(1, 0, 0).join(0).raw(&form).raw(&[0; 2]));
        }
    }
    for value in TELLING {
        list.push(new().int(value).raw(&[0; 20]));
    }
    list
}

fn cuts(new: impl Fn() -> Body) -> Vec<Body> {
    let mut list = Vec::new();
    for form in [
        [0x80; 5],
        [0xbf, 0xff, 0xff, 0xff, 0x0f],
        [0xff, 0xff, 0xff, 0xff, 0xff],
        [0xc0, 0x80, 0x80, 0x80, 0x10],
    ] {
        for end in 1..=5 {
            list.push(new().raw(&form[..end]));
            list.push(new().player_new(0, 0, 0).int(0).raw(&form[..end]));
        }
    }
    list
}
