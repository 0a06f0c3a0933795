//! Records, one method each.

use crate::body::Body;
use crate::extension::PLAYER_FINISH;
use crate::extension::PLAYER_TEAM;

pub const FINISH: i32 = -1;
pub const TICK_SKIP: i32 = -2;
pub const PLAYER_NEW: i32 = -3;
pub const PLAYER_OLD: i32 = -4;
pub const INPUT_DIFF: i32 = -5;
pub const INPUT_NEW: i32 = -6;
pub const MESSAGE: i32 = -7;
pub const JOIN: i32 = -8;
pub const DROP: i32 = -9;
pub const COMMAND: i32 = -10;
pub const EXTENSION: i32 = -11;

pub struct Command<'a> {
    pub client: i32,
    pub flags: i32,
    pub name: &'a [u8],
    /// The count as written, which may differ from the number of arguments.
    pub count: i32,
    pub arguments: &'a [Vec<u8>],
}

impl Body {
    pub fn finish(self) -> Body {
        self.int(FINISH)
    }
    pub fn skip(self, dt: i32) -> Body {
        self.int(TICK_SKIP).int(dt)
    }
    pub fn player_diff(self, client: i32, dx: i32, dy: i32) -> Body {
        self.ints(&[client, dx, dy])
    }
    pub fn player_new(self, client: i32, x: i32, y: i32) -> Body {
        self.ints(&[PLAYER_NEW, client, x, y])
    }
    pub fn player_old(self, client: i32) -> Body {
        self.ints(&[PLAYER_OLD, client])
    }
    pub fn input_diff(self, client: i32, numbers: &[i32; 10]) -> Body {
        self.ints(&[INPUT_DIFF, client]).ints(numbers)
    }
    pub fn input_new(self, client: i32, numbers: &[i32; 10]) -> Body {
        self.ints(&[INPUT_NEW, client]).ints(numbers)
    }
    pub fn message(self, client: i32, bytes: &[u8]) -> Body {
        self.ints(&[MESSAGE, client]).data(bytes)
    }
    pub fn join(self, client: i32) -> Body {
        self.ints(&[JOIN, client])
    }
    /// Joins up to so many bytes.
    pub fn filled(self, size: usize) -> Body {
        let odd = (size - self.len()) % 2 == 1;
        // a client of two bytes makes a Join of three
        let body = if odd { self.join(64) } else { self };
        let left = size - body.len();
        body.raw(&Body::bare().join(0).done().repeat(left / 2))
    }
    pub fn drop(self, client: i32, reason: &[u8]) -> Body {
        self.ints(&[DROP, client]).string(reason)
    }
    pub fn command(self, command: &Command) -> Body {
        let begun = self.ints(&[COMMAND, command.client, command.flags]);
        let counted = begun.string(command.name).int(command.count);
        let arguments = command.arguments.iter();
        arguments.fold(counted, |body, argument| body.string(argument))
    }
    pub fn extension(self, identifier: &[u8], payload: &[u8]) -> Body {
        self.int(EXTENSION).raw(identifier).data(payload)
    }
    pub fn player_finish(self, client: i32, time: i32) -> Body {
        let payload = Body::bare().ints(&[client, time]).done();
        self.extension(PLAYER_FINISH, &payload)
    }
    pub fn player_team(self, client: i32, team: i32) -> Body {
        let payload = Body::bare().ints(&[client, team]).done();
        self.extension(PLAYER_TEAM, &payload)
    }
}
