//! What reach_vectors must print. libtw2 has no such call. Which records are chosen and when there are none is a model beside it,
//! written from docs/FORMAT.md and crates/choice/specs; from which reader, and whether the bytes bring it to the wanted board,
//! libtw2's reader says.

use crate::entries::Held;
use crate::entries::Player;
use crate::entries::Team;
use crate::entries::Wanted;
use crate::fields::hex;
use crate::goals::Goal;
use crate::integers::written;
use crate::stand::Stand;

/// The kind numbers of the records that are written.
const TICK_SKIP: i32 = -2;
const PLAYER_NEW: i32 = -3;
const PLAYER_OLD: i32 = -4;
const INPUT_NEW: i32 = -6;
const COMMAND: i32 = -10;
const EXTENSION: i32 = -11;

/// The identifier of PlayerTeam.
pub const PLAYER_TEAM: [u8; 16] = 0xa111c04e1ea838e090b1d7f993ca0da9_u128.to_be_bytes();

/// Why a board can't be reached.
#[derive(Clone, Copy, Debug, PartialEq)]
pub enum Cause {
    /// It is outside a tick.
    Outside,
    /// Its tick is below the reader's.
    Tick,
    /// A client has inputs now and none in it.
    Inputs,
    /// A client has a team now and none in it.
    Team,
    /// A client has a team in it, and the reader's version is 1.
    Version,
    /// The ticks are equal, the reader is inside it, and a player entry differs at or below the remembered client.
    Player,
}

#[derive(Debug, PartialEq)]
pub enum Answer {
    Written(Vec<u8>),
    Refused(u8),
}

/// What reach_vectors prints, and what it is.
pub struct Told {
    pub text: String,
    pub answer: Answer,
    /// Of refusal 23, all that hold.
    pub causes: Vec<Cause>,
    /// libtw2's reader isn't at the wanted board behind the bytes that were chosen.
    pub is_lost: bool,
    pub events: u64,
}

/// The reader that an input gives, and what is to be reached from it.
pub fn told(input: &[u8], goal: &Goal) -> Told {
    let stand = Stand::of(input, goal.limit());
    let wanted = goal.wanted(&stand);
    let answer = reached(&stand, &wanted, goal.room as usize);
    let mut told = Told {
        text: String::new(),
        causes: match answer {
            Answer::Refused(23) => causes(&stand, &wanted),
            _ => Vec::new(),
        },
        answer,
        is_lost: false,
        events: 0,
    };
    told.text = match &told.answer {
        Answer::Refused(number) => format!("refused {number}\n"),
        Answer::Written(bytes) if stand.is_by_hand() => format!("{}\n", word(bytes)),
        Answer::Written(bytes) => match stand.arrives(bytes, &wanted) {
            Some(events) => {
                told.events = events;
                format!("{} {events}\n", word(bytes))
            }
            None => {
                told.is_lost = true;
                format!("{} bring libtw2's reader to another board\n", word(bytes))
            }
        },
    };
    told
}

/// The bytes in hex; `-` for none.
fn word(bytes: &[u8]) -> String {
    if bytes.is_empty() {
        return "-".to_string();
    }
    hex(bytes)
}

/// The answer of the call with so much room.
pub fn reached(stand: &Stand, wanted: &Wanted, room: usize) -> Answer {
    if stand.is_bad || wanted.is_bad() {
        return Answer::Refused(17);
    }
    if stand.is_closed {
        return Answer::Refused(18);
    }
    if stand.is_pending {
        return Answer::Refused(22);
    }
    let tick = match wanted.tick {
        Some(tick) if causes(stand, wanted).is_empty() => tick,
        _ => return Answer::Refused(23),
    };
    let bytes = chosen(stand, tick, wanted);
    if bytes.len() > room {
        return Answer::Refused(9);
    }
    Answer::Written(bytes)
}

fn causes(stand: &Stand, wanted: &Wanted) -> Vec<Cause> {
    let Some(tick) = wanted.tick else {
        return vec![Cause::Outside];
    };
    let (now, then) = (&stand.board.entries, &wanted.entries);
    let mut inputs = now.inputs.iter().zip(&then.inputs);
    let mut teams = now.teams.iter().zip(&then.teams);
    let is_same_tick = stand.is_inside() && tick == stand.tick;
    let is_differing = || {
        let behind = stand.behind();
        now.players[..behind] != then.players[..behind]
    };
    let held = [
        (tick < stand.tick, Cause::Tick),
        (
            inputs.any(|(now, then)| now.mark == 1 && then.mark != 1),
            Cause::Inputs,
        ),
        (
            teams.any(|(now, then)| now.mark == 1 && then.mark != 1),
            Cause::Team,
        ),
        (
            stand.is_first_version && then.teams.iter().any(|team| team.mark == 1),
            Cause::Version,
        ),
        (is_same_tick && is_differing(), Cause::Player),
    ];
    let causes = held.into_iter().filter(|(holds, _)| *holds);
    causes.map(|(_, cause)| cause).collect()
}

/// The bytes of the chosen records: a TickSkip to the tick, players, inputs, teams, and a command if nothing else starts the tick.
fn chosen(stand: &Stand, tick: i32, wanted: &Wanted) -> Vec<u8> {
    let (now, then) = (&stand.board.entries, &wanted.entries);
    let is_later = stand.tick < tick;
    let mut records: Vec<Vec<u8>> = Vec::new();
    if is_later {
        records.push(packed(&[TICK_SKIP, tick - stand.tick - 1]));
    }
    let skips = records.len();
    let players = now.players.iter().zip(&then.players).enumerate();
    records.extend(players.filter_map(|(client, (now, then))| player(client as i32, now, then)));
    let inputs = now.inputs.iter().zip(&then.inputs).enumerate();
    records.extend(inputs.filter_map(|(client, (now, then))| input(client as i32, now, then)));
    let teams = now.teams.iter().zip(&then.teams).enumerate();
    records.extend(teams.filter_map(|(client, (now, then))| team(client as i32, now, then)));
    // inside a tick a skip ends it, outside it starts the next
    let is_started = stand.is_inside() != is_later;
    if !is_started && records.len() == skips {
        // of the server's own client, with no flags, an empty name and no arguments
        records.push(packed(&[COMMAND, -1, 0, 0, 0]));
    }
    records.concat()
}

/// Numbers, one behind the other.
fn packed(numbers: &[i32]) -> Vec<u8> {
    numbers.iter().flat_map(|number| written(*number)).collect()
}

fn player(client: i32, now: &Player, then: &Player) -> Option<Vec<u8>> {
    if now == then {
        return None;
    }
    Some(match (now.mark, then.mark) {
        (1, 1) => packed(&[
            client,
            then.x.wrapping_sub(now.x),
            then.y.wrapping_sub(now.y),
        ]),
        (1, _) => packed(&[PLAYER_OLD, client]),
        _ => packed(&[PLAYER_NEW, client, then.x, then.y]),
    })
}

fn input(client: i32, now: &Held, then: &Held) -> Option<Vec<u8>> {
    if then.mark != 1 || now == then {
        return None;
    }
    Some([packed(&[INPUT_NEW, client]), packed(&then.ten)].concat())
}

/// A PlayerTeam record: its kind and identifier, and the two numbers behind their length.
fn team(client: i32, now: &Team, then: &Team) -> Option<Vec<u8>> {
    if then.mark != 1 || now == then {
        return None;
    }
    let data = packed(&[client, then.number]);
    let head = [packed(&[EXTENSION]), PLAYER_TEAM.to_vec()].concat();
    Some([head, packed(&[data.len() as i32]), data].concat())
}

#[cfg(test)]
mod tests;
