//! Bodies with a Message or an extension of negative length.

mod any;
mod limits;

use crate::body::Body;
use crate::fixed::Fixed;
use crate::integer;
use crate::random::Random;
use crate::record::EXTENSION;
use crate::record::MESSAGE;
use std::sync::OnceLock;

const WINDOW: usize = 65536;

/// What stands before a length.
#[derive(Clone, Copy)]
enum Head {
    /// The kind and a client.
    Message(i32),
    /// The kind and an identifier.
    Extension([u8; 16]),
}

impl Head {
    fn add(self, body: Body) -> Body {
        match self {
            Head::Message(client) => body.ints(&[MESSAGE, client]),
            Head::Extension(identifier) => body.int(EXTENSION).raw(&identifier),
        }
    }
}

/// The fixed list first, of it the smallest ones; then negative lengths behind other records.
pub fn input(index: u64, random: &mut Random) -> Vec<u8> {
    let chosen = fixed().input(index);
    chosen.unwrap_or_else(|| any::input(random))
}

/// Records up to this size, and then one of negative length.
pub fn sized(size: usize, random: &mut Random) -> Vec<u8> {
    let body = any::records(Body::new(2), 2, size, random);
    body.ints(&[MESSAGE, 0, -1]).finish().done()
}

fn fixed() -> &'static Fixed {
    static LIST: OnceLock<Fixed> = OnceLock::new();
    LIST.get_or_init(|| Fixed {
        smallest: limits::smallest(),
        others: limits::others(),
    })
}

/// A form of a number, any of them.
fn any_form(value: i32, random: &mut Random) -> Vec<u8> {
    let forms = integer::forms(value);
    let chosen = random.below(forms.len());
    forms[chosen].clone()
}
