//! One reading of a body by libtw2's reader, call by call.

use crate::length;
use crate::teams::Teams;
use libtw2_teehistorian::format;
use libtw2_teehistorian::format::item;
use libtw2_teehistorian::format::Version;
use libtw2_teehistorian::raw;
use std::borrow::Cow;
use std::collections::HashMap;

/// How the bytes are handed to the reader.
#[derive(Clone, Copy)]
pub enum Pace {
    /// As many as it has room for.
    Whole,
    /// One for each request, so that the requests of a call are the bytes that it uses.
    Single,
    /// One for each request, and none beyond this many in one call.
    AtMost(usize),
}

pub enum Answer<'a> {
    Event(raw::Item<'a>),
    Finish,
    Refused(u8),
    /// The call asked for more bytes than its pace allows.
    Stopped,
}

/// UnexpectedEnd.
const RUNS_OUT: u8 = 3;

pub struct Run<'b> {
    reader: raw::Reader,
    buffer: raw::Buffer,
    source: Source<'b>,
    teams: Teams,
}

impl<'b> Run<'b> {
    /// None if the reader does not take the version.
    pub fn new(version: u8, body: &'b [u8], pace: Pace) -> Option<Run<'b>> {
        let reader = raw::Reader::from_header(&header(version)).ok()?;
        Some(Run {
            reader,
            buffer: raw::Buffer::new(),
            source: Source {
                version: if version == 1 {
                    Version::V1
                } else {
                    Version::V2
                },
                body,
                place: 0,
                pace,
                requests: 0,
            },
            teams: Teams::none(),
        })
    }
    /// libtw2's own call, without the teams.
    pub fn read(&mut self) -> Result<Option<raw::Item<'_>>, raw::Error<Stop>> {
        self.source.read(&mut self.reader, &mut self.buffer)
    }
    /// The project's answer: libtw2's, but for a negative length, which libtw2 takes for bytes that run out.
    pub fn call(&mut self) -> Answer<'_> {
        let answer = match self.source.read(&mut self.reader, &mut self.buffer) {
            Ok(Some(item)) => {
                self.teams.apply(&item);
                return Answer::Event(item);
            }
            Ok(None) => return Answer::Finish,
            Err(raw::Error::Teehistorian(error)) => Answer::Refused(refusal(&error)),
            Err(raw::Error::Cb(Stop)) => Answer::Stopped,
        };
        match answer {
            Answer::Refused(RUNS_OUT) | Answer::Stopped if self.source.stops_at_negative() => {
                Answer::Refused(length::REFUSED)
            }
            answer => answer,
        }
    }
    /// How many bytes the reader has been handed.
    pub fn place(&self) -> usize {
        self.source.place
    }
    pub fn reader(&self) -> &raw::Reader {
        &self.reader
    }
    /// The teams after the calls so far.
    pub fn teams(&self) -> &Teams {
        &self.teams
    }
}

struct Source<'b> {
    version: Version,
    body: &'b [u8],
    place: usize,
    pace: Pace,
    requests: usize,
}

impl Source<'_> {
    fn read<'a>(
        &mut self,
        reader: &mut raw::Reader,
        buffer: &'a mut raw::Buffer,
    ) -> Result<Option<raw::Item<'a>>, raw::Error<Stop>> {
        self.requests = 0;
        reader.read(self, buffer)
    }
    /// Whether the record that the bytes handed over don't hold whole has a negative length.
    fn stops_at_negative(&self) -> bool {
        length::stops_at_negative(self.version, &self.body[..self.place])
    }
}

#[derive(Debug)]
pub struct Stop;

impl<'b> raw::Callback for Source<'b> {
    type Error = Stop;
    fn read_at_most(&mut self, room: &mut [u8]) -> Result<Option<usize>, Stop> {
        self.requests += 1;
        let most = match self.pace {
            Pace::Whole => room.len(),
            Pace::Single => 1,
            Pace::AtMost(limit) if self.requests <= limit => 1,
            Pace::AtMost(_) => return Err(Stop),
        };
        let left = &self.body[self.place..];
        let count = most.min(left.len());
        if count == 0 {
            return Ok(None);
        }
        room[..count].copy_from_slice(&left[..count]);
        self.place += count;
        Ok(Some(count))
    }
}

/// The numbers that the project gives to libtw2's errors.
fn refusal(error: &format::Error) -> u8 {
    match error {
        format::Error::UnknownVersion => 2,
        format::Error::UnexpectedEnd => RUNS_OUT,
        format::Error::Item(error) => record_refusal(error),
        format::Error::InvalidClientId => 8,
        format::Error::TickOverflow => 12,
        format::Error::PlayerNewDuplicate => 13,
        format::Error::PlayerDiffWithoutNew => 14,
        format::Error::PlayerOldWithoutNew => 15,
        format::Error::InputDiffWithoutNew => 16,
        format::Error::Header(_) => unreachable!("no header is read"),
        format::Error::InputNewDuplicate => unreachable!("libtw2 gives it nowhere"),
    }
}

pub fn record_refusal(error: &item::Error) -> u8 {
    match error {
        item::Error::UnknownType(_) => 4,
        item::Error::NegativeDt => 5,
        item::Error::NegativeNumArgs => 6,
        item::Error::NumArgsTooLarge => 7,
    }
}

/// A header of which only the version matters.
fn header(version: u8) -> format::Header<'static> {
    format::Header {
        version: version.into(),
        game_uuid: uuid::Uuid::nil(),
        timestamp: chrono::DateTime::default(),
        server_port: 0,
        map_name: Cow::Borrowed(""),
        map_size: 0,
        map_sha256: None,
        map_crc: 0,
        config: HashMap::new(),
    }
}
