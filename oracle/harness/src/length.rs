//! Negative lengths. libtw2 says of one what it says where the bytes run out; the project refuses it by a number of its own. The
//! two are told apart by the length that stands in the record.

use libtw2_packer::Unpacker;
use libtw2_teehistorian::format::item::Kind;
use libtw2_teehistorian::format::Item;
use libtw2_teehistorian::format::Version;
use libtw2_warn::Ignore;

/// NegativeLength.
pub const REFUSED: u8 = 21;

/// The bytes of an extension's identifier.
const IDENTIFIER: usize = 16;

/// Whether, of a body that begins with these bytes, the first record that they don't hold whole has a negative length.
pub fn stops_at_negative(version: Version, bytes: &[u8]) -> bool {
    let mut unpacker = Unpacker::new(bytes);
    loop {
        let left = unpacker.as_slice();
        if Item::decode(&mut unpacker, version).is_err() {
            return begins_negative(version, left);
        }
    }
}

/// Whether the bytes begin with a Message or an extension whose data length is there to its last byte and is below 0.
pub fn begins_negative(version: Version, bytes: &[u8]) -> bool {
    length(version, bytes).is_some_and(|length| length < 0)
}

/// None if the record has no data, or its bytes run out before the length's last one.
fn length(version: Version, bytes: &[u8]) -> Option<i32> {
    let mut unpacker = Unpacker::new(bytes);
    match Kind::decode(&mut unpacker, version).ok()? {
        Kind::Message => drop(unpacker.read_int(&mut Ignore).ok()?),
        Kind::Ex => drop(unpacker.read_raw(IDENTIFIER).ok()?),
        _ => return None,
    }
    unpacker.read_int(&mut Ignore).ok()
}

#[cfg(test)]
mod tests;
