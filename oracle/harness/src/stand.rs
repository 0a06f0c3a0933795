//! Readers from which a wanted board is to be reached. Of one that has read, libtw2's reader tells all: its lookups the entries,
//! its events the tick and the teams, and a record put behind what it has read the tick that it would start and whether a client is
//! at or below the remembered one. Others are made by hand.

use crate::board::Board;
use crate::entries::Entries;
use crate::entries::Player;
use crate::entries::Team;
use crate::entries::Wanted;
use crate::expected::has_large_client;
use crate::expected::LARGEST_CLIENT;
use crate::integers::written;
use crate::lookups::tick_after;
use crate::run::Answer;
use crate::run::Pace;
use crate::run::Run;
use libtw2_packer::Unpacker;
use libtw2_teehistorian::format::item::Kind;
use libtw2_teehistorian::format::Version;
use libtw2_teehistorian::raw::Item;

/// Stands for no client where a reader made by hand has the remembered one.
const NO_CLIENT: u8 = 255;

/// The kind numbers of PlayerOld and Join.
const PLAYER_OLD: i32 = -4;
const JOIN: i32 = -8;

/// UnexpectedEnd, which is *more* while the flag is off, and TickOverflow.
const RUNS_OUT: u8 = 3;
const OVERFLOW: u8 = 12;

/// A reading with the flag off, event by event.
pub struct Walk<'b> {
    run: Run<'b>,
    version: Version,
    body: &'b [u8],
    /// Where the record under way begins.
    record: usize,
    pub events: u64,
    /// The bytes that the events used.
    pub used: usize,
    pub tick: Option<i32>,
    pub is_pending: bool,
    pub is_closed: bool,
}

impl<'b> Walk<'b> {
    /// Any version but 1 counts as 2.
    pub fn new(version: u8, body: &'b [u8]) -> Walk<'b> {
        let (number, version) = if version == 1 {
            (1, Version::V1)
        } else {
            (2, Version::V2)
        };
        Walk {
            run: Run::new(number, body, Pace::Single).expect("a version of libtw2's"),
            version,
            body,
            record: 0,
            events: 0,
            used: 0,
            tick: None,
            is_pending: false,
            is_closed: false,
        }
    }
    /// False if no event comes: finish, a refusal or *more*.
    pub fn step(&mut self) -> bool {
        let of_tick = match self.run.call() {
            Answer::Event(event) if has_large_client(&event) => return self.close(),
            Answer::Event(event) => {
                self.tick = tick_after(self.tick, &event);
                matches!(event, Item::TickStart(_) | Item::TickEnd(_))
            }
            Answer::Refused(RUNS_OUT) | Answer::Stopped => return false,
            Answer::Refused(_) | Answer::Finish => return self.close(),
        };
        self.events += 1;
        self.used = self.run.place();
        // such an event stands for its kind alone, unless a TickSkip gave it
        self.is_pending = of_tick && !self.is_skip();
        if !self.is_pending {
            self.record = self.used;
        }
        true
    }
    fn close(&mut self) -> bool {
        self.is_closed = true;
        self.is_pending = false;
        false
    }
    /// Whether the record under way is a TickSkip.
    fn is_skip(&self) -> bool {
        let mut unpacker = Unpacker::new(&self.body[self.record..]);
        matches!(
            Kind::decode(&mut unpacker, self.version),
            Ok(Kind::TickSkip)
        )
    }
    /// What a last call answers.
    fn call(&mut self) -> Answer<'_> {
        self.run.call()
    }
    pub fn board(&self) -> Wanted {
        Wanted {
            tick: self.tick,
            entries: Entries::of(&Board::of(&self.run)),
        }
    }
}

/// Where a reader comes from.
enum Origin {
    /// A version, the bytes that were read, and how many events they gave.
    Read {
        version: u8,
        body: Vec<u8>,
        events: u64,
    },
    Hand {
        remembered: Option<i32>,
    },
}

/// What is given of a reader made by hand. Where bytes are missing they are 0.
struct Given<'g>(&'g [u8]);

impl Given<'_> {
    fn byte(&self, place: usize) -> u8 {
        self.0.get(place).copied().unwrap_or(0)
    }
    /// 100 less than its byte.
    fn number(&self, place: usize) -> i32 {
        match self.byte(place) {
            255 => i32::MIN,
            byte => i32::from(byte) - 100,
        }
    }
    /// A client's position and one number of its inputs, and a client's team; without the bytes of that nobody has one.
    fn entries(&self) -> Entries {
        let mut entries = Entries::none();
        let client = usize::from(self.byte(7));
        if let Some(player) = entries.players.get_mut(client) {
            *player = Player {
                mark: self.byte(8),
                x: self.number(9),
                y: self.number(10),
            };
            let held = &mut entries.inputs[client];
            if let Some(place) = held.ten.get_mut(usize::from(self.byte(12))) {
                *place = self.number(13);
                held.mark = self.byte(11);
            }
        }
        let member = self.0.get(14).map(|client| usize::from(*client));
        if let Some(team) = member.and_then(|client| entries.teams.get_mut(client)) {
            *team = Team {
                mark: self.number(15),
                number: self.number(16),
            };
        }
        entries
    }
}

pub struct Stand {
    origin: Origin,
    /// Version 1 has no extensions.
    pub is_first_version: bool,
    pub is_bad: bool,
    pub is_closed: bool,
    pub is_pending: bool,
    /// The reader's, inside it or not; of no meaning if the reader is closed or a kind is pending.
    pub tick: i32,
    pub board: Wanted,
}

impl Stand {
    /// A version byte and a body, read until so many events have come; or 00 and what is given of a reader made by hand.
    pub fn of(input: &[u8], limit: u64) -> Stand {
        match input.split_first() {
            Some((0, given)) => Stand::by_hand(given),
            Some((version, body)) => Stand::read(*version, body, limit),
            None => Stand::by_hand(&[]),
        }
    }
    fn read(version: u8, body: &[u8], limit: u64) -> Stand {
        let mut walk = Walk::new(version, body);
        while walk.events < limit && walk.step() {}
        let mut stand = Stand {
            origin: Origin::Read {
                version,
                body: body[..walk.used].to_vec(),
                events: walk.events,
            },
            is_first_version: version == 1,
            is_bad: false,
            is_closed: walk.is_closed,
            is_pending: walk.is_pending,
            tick: 0,
            board: walk.board(),
        };
        if !stand.is_closed && !stand.is_pending {
            stand.tick = stand.board.tick.unwrap_or_else(|| stand.next_start());
        }
        stand
    }
    /// As team_alike::team_reader_in has it, then the remembered client.
    fn by_hand(given: &[u8]) -> Stand {
        let given = Given(given);
        let (tick, largest) = (given.number(1), given.number(2));
        let is_first_version = given.byte(0) == 1;
        let is_bad_kind = match given.byte(3) {
            1 => given.number(4) < 0,
            3 => is_first_version,
            _ => false,
        };
        let entries = given.entries();
        let remembered = given.byte(17);
        Stand {
            origin: Origin::Hand {
                remembered: (remembered != NO_CLIENT).then_some(i32::from(remembered)),
            },
            is_first_version,
            is_bad: tick < 0 || largest < -1 || is_bad_kind || entries.are_bad(),
            is_closed: (1..=2).contains(&given.byte(5)),
            is_pending: (1..=3).contains(&given.byte(3)),
            tick,
            board: Wanted {
                tick: (given.byte(6) == 1).then_some(tick),
                entries,
            },
        }
    }
    pub fn is_by_hand(&self) -> bool {
        matches!(self.origin, Origin::Hand { .. })
    }
    pub fn is_inside(&self) -> bool {
        self.board.tick.is_some()
    }
    /// So many clients, from 0 on, are at or below the remembered one.
    pub fn behind(&self) -> usize {
        let clients: Vec<i32> = (0..=LARGEST_CLIENT).collect();
        match &self.origin {
            Origin::Read { .. } => clients.partition_point(|client| self.is_ended_by(*client)),
            Origin::Hand { remembered } => {
                clients.partition_point(|client| Some(*client) <= *remembered)
            }
        }
    }
    /// What libtw2's reader answers to a record behind what was read; it has no meaning for a reader made by hand.
    fn answer<T>(&self, record: &[i32], tell: impl Fn(Answer) -> Option<T>) -> Option<T> {
        let Origin::Read {
            version,
            body,
            events,
        } = &self.origin
        else {
            return None;
        };
        let record: Vec<u8> = record.iter().flat_map(|number| written(*number)).collect();
        let longer = [&body[..], &record].concat();
        let mut walk = Walk::new(*version, &longer);
        while walk.events < *events && walk.step() {}
        tell(walk.call())
    }
    /// The tick that a Join starts, outside one.
    fn next_start(&self) -> i32 {
        let start = self.answer(&[JOIN, 0], |answer| match answer {
            Answer::Event(Item::TickStart(tick)) => Some(tick),
            _ => None,
        });
        start.expect("outside a tick a Join starts one")
    }
    /// Whether a player record of the client would end the tick, inside one; the last tick can't be ended so.
    fn is_ended_by(&self, client: i32) -> bool {
        let ended = self.answer(&[PLAYER_OLD, client], |answer| match answer {
            Answer::Event(Item::TickEnd(_)) | Answer::Refused(OVERFLOW) => Some(()),
            _ => None,
        });
        ended.is_some()
    }
    /// How many events libtw2's reader gives for bytes behind what was read, if it then has read them all, nothing is pending and
    /// its board is the wanted one. None for a reader made by hand.
    pub fn arrives(&self, bytes: &[u8], wanted: &Wanted) -> Option<u64> {
        let Origin::Read {
            version,
            body,
            events,
        } = &self.origin
        else {
            return None;
        };
        let longer = [&body[..], bytes].concat();
        let mut walk = Walk::new(*version, &longer);
        while walk.step() {}
        let is_there = walk.used == longer.len()
            && !walk.is_closed
            && !walk.is_pending
            && walk.board() == *wanted;
        is_there.then(|| walk.events - events)
    }
}
