//! The extensions: name, identifier, and the fields of the payload.

use crate::body::Body;
use crate::random::Random;

#[derive(Clone, Copy)]
pub enum Field {
    Client,
    Number,
    Identifier,
    Text,
    Rest,
}

pub struct Extension {
    pub identifier: [u8; 16],
    pub fields: &'static [Field],
}

use Field::{Client, Identifier, Number, Rest, Text};

/// In the order of their names: Antibot, AuthInit, AuthLogin, AuthLogout, Ddnetver, DdnetverOld, Joinver6, Joinver7,
/// PlayerFinish, PlayerName, PlayerReady, PlayerRejoin, PlayerSwap, PlayerTeam, TeamFinish, TeamLoadFailure,
/// TeamLoadSuccess, TeamPractice, TeamSaveFailure, TeamSaveSuccess.
pub const EXTENSIONS: [Extension; 20] = [
    extension(0x866bfdacfb493c0ba8875fe1f3ea00b8, &[Rest]),
    extension(0x60daba5c52c43aebb8bab2953fb55a17, &[Client, Number, Text]),
    extension(0x37ecd3b892183bb9a71ba935b86f6a81, &[Client, Number, Text]),
    extension(0xd4f5abe8edd23fb9abd81c8bb84f4a63, &[Client]),
    extension(
        0x1397b63eee4e3919b86ab058887fcaf5,
        &[Client, Identifier, Number, Text],
    ),
    extension(0x41b49541f26f325d87159baf4b544ef9, &[Client, Number]),
    extension(0x1899a38271e336da937dc9de6bb95b1d, &[Client]),
    extension(0x59239b050540318dbea49aa1e80e7d2b, &[Client]),
    extension(0x68943c0123483e0194903f27f8269d94, &[Client, Number]),
    extension(0xd016f9b941513b8787e53a6087eb5f26, &[Client, Text]),
    extension(0x638587c93f753887918ea3c2614ffaa0, &[Client]),
    extension(0xc1e921d596f537bb8a457a06f163d27e, &[Client]),
    extension(0x5de9b63349cf3e999a25d4a78e9717d7, &[Client, Client]),
    extension(0xa111c04e1ea838e090b1d7f993ca0da9, &[Client, Number]),
    extension(0x9588b9af3fdc3760804382deeee317a5, &[Number, Number]),
    extension(0xef8905a2c6953591a1cd53d2015992dd, &[Number]),
    extension(
        0xe05408d3a31333df9eb3ddb990ab954a,
        &[Number, Identifier, Text],
    ),
    extension(0x5792834e81d134c9a29bb5ff25dac3bc, &[Number, Number]),
    extension(0xb29901d512443bd0bbde23d04b1f7ba9, &[Number]),
    extension(
        0x4560c756da29303681d490a50f0182cd,
        &[Number, Identifier, Text],
    ),
];

/// The places of PlayerFinish and PlayerTeam on the list; DdnetverOld, PlayerSwap, TeamFinish and TeamPractice have two numbers too.
const FINISH: usize = 8;
const TEAM: usize = 13;
const LIKE_FINISH: [usize; 5] = [5, 12, TEAM, 14, 17];
const LIKE_TEAM: [usize; 5] = [5, FINISH, 12, 14, 17];

pub const PLAYER_FINISH: &[u8; 16] = &EXTENSIONS[FINISH].identifier;
pub const PLAYER_TEAM: &[u8; 16] = &EXTENSIONS[TEAM].identifier;

/// The identifiers of the extensions whose payload is two numbers, as PlayerFinish's is.
pub fn like_finish() -> [&'static [u8; 16]; 5] {
    LIKE_FINISH.map(|place| &EXTENSIONS[place].identifier)
}

/// The same for PlayerTeam.
pub fn like_team() -> [&'static [u8; 16]; 5] {
    LIKE_TEAM.map(|place| &EXTENSIONS[place].identifier)
}

const fn extension(identifier: u128, fields: &'static [Field]) -> Extension {
    Extension {
        identifier: identifier.to_be_bytes(),
        fields,
    }
}

impl Extension {
    /// A complete payload for this client, or for this team.
    pub fn payload(&self, client: i32, random: &mut Random) -> Vec<u8> {
        let fields = self.fields.iter();
        let odd = random.pick(&[0, 0, 0, 3]);
        let empty = Body::bare().with_odd_forms(odd, random);
        fields
            .fold(empty, |body, field| field.add(body, client, random))
            .done()
    }
}

impl Field {
    fn add(self, body: Body, client: i32, random: &mut Random) -> Body {
        let length = random.below(12);
        match self {
            Client => body.int(client),
            Number => body.int(random.number()),
            Identifier => body.raw(&random.bytes(16)),
            Text => body.string(&random.text(length)),
            Rest => body.raw(&random.bytes(length)),
        }
    }
}

/// Any of the 20 with a complete payload, now and then with spare bytes, or an unknown one.
pub fn add_any(body: Body, client: i32, random: &mut Random) -> Body {
    let chosen = random.below(EXTENSIONS.len() + 1);
    let spare = if random.one_in(8) { random.below(5) } else { 0 };
    let spare = random.bytes(spare);
    match EXTENSIONS.get(chosen) {
        Some(known) => {
            let payload = known.payload(client, random);
            body.extension(&known.identifier, &[payload, spare].concat())
        }
        None => body.extension(&random.bytes(16), &spare),
    }
}
