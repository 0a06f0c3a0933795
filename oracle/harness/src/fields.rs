//! A record's name and all its fields as text.

use libtw2_teehistorian::format::Item;
use std::fmt::Display;
use uuid::Uuid;

pub fn fields(record: &Item) -> String {
    let line = match record {
        Item::PlayerDiff(i) => Line::of("PlayerDiff").add(i.cid).add(i.dx).add(i.dy),
        Item::Finish(_) => Line::of("Finish"),
        Item::TickSkip(i) => Line::of("TickSkip").add(i.dt),
        Item::PlayerNew(i) => Line::of("PlayerNew").add(i.cid).add(i.x).add(i.y),
        Item::PlayerOld(i) => Line::of("PlayerOld").add(i.cid),
        Item::InputDiff(i) => Line::of("InputDiff").add(i.cid).all(&i.diff),
        Item::InputNew(i) => Line::of("InputNew").add(i.cid).all(&i.new),
        Item::Message(i) => Line::of("Message").add(i.cid).bytes(i.msg),
        Item::Join(i) => Line::of("Join").add(i.cid),
        Item::Drop(i) => Line::of("Drop").add(i.cid).bytes(i.reason),
        Item::ConsoleCommand(i) => Line::of("ConsoleCommand")
            .add(i.cid)
            .add(i.flag_mask)
            .bytes(i.cmd)
            .parts(&i.args),
        extension => extension_fields(extension),
    };
    line.0
}

fn extension_fields(record: &Item) -> Line {
    match record {
        Item::Antibot(i) => Line::of("Antibot").bytes(i.data),
        Item::AuthInit(i) => Line::of("AuthInit")
            .add(i.cid)
            .add(i.level)
            .bytes(i.identity),
        Item::AuthLogin(i) => Line::of("AuthLogin")
            .add(i.cid)
            .add(i.level)
            .bytes(i.identity),
        Item::AuthLogout(i) => Line::of("AuthLogout").add(i.cid),
        Item::Ddnetver(i) => Line::of("Ddnetver")
            .add(i.cid)
            .uuid(&i.connection_id)
            .add(i.ddnet_version)
            .bytes(i.ddnet_version_str),
        Item::DdnetverOld(i) => Line::of("DdnetverOld").add(i.cid).add(i.ddnet_version),
        Item::Joinver6(i) => Line::of("Joinver6").add(i.cid),
        Item::Joinver7(i) => Line::of("Joinver7").add(i.cid),
        Item::PlayerFinish(i) => Line::of("PlayerFinish").add(i.cid).add(i.time_ticks),
        Item::PlayerName(i) => Line::of("PlayerName").add(i.cid).bytes(i.name),
        Item::PlayerReady(i) => Line::of("PlayerReady").add(i.cid),
        Item::PlayerRejoin(i) => Line::of("PlayerRejoin").add(i.cid),
        Item::PlayerSwap(i) => Line::of("PlayerSwap").add(i.cid1).add(i.cid2),
        Item::PlayerTeam(i) => Line::of("PlayerTeam").add(i.cid).add(i.team),
        team => team_fields(team),
    }
}

fn team_fields(record: &Item) -> Line {
    match record {
        Item::TeamFinish(i) => Line::of("TeamFinish").add(i.team).add(i.time_ticks),
        Item::TeamLoadFailure(i) => Line::of("TeamLoadFailure").add(i.team),
        Item::TeamLoadSuccess(i) => Line::of("TeamLoadSuccess")
            .add(i.team)
            .uuid(&i.save_uuid)
            .bytes(i.save),
        Item::TeamPractice(i) => Line::of("TeamPractice").add(i.team).add(i.practice),
        Item::TeamSaveFailure(i) => Line::of("TeamSaveFailure").add(i.team),
        Item::TeamSaveSuccess(i) => Line::of("TeamSaveSuccess")
            .add(i.team)
            .uuid(&i.save_uuid)
            .bytes(i.save),
        Item::UnknownEx(i) => Line::of("UnknownEx").uuid(&i.uuid).bytes(i.data),
        _ => unreachable!("the other records have been shown"),
    }
}

struct Line(String);

impl Line {
    fn of(name: &str) -> Line {
        Line(name.to_string())
    }
    fn add(mut self, field: impl Display) -> Line {
        self.0.push_str(&format!(" {field}"));
        self
    }
    fn all(self, numbers: &[i32]) -> Line {
        numbers.iter().fold(self, |line, number| line.add(number))
    }
    fn bytes(self, bytes: &[u8]) -> Line {
        if bytes.is_empty() {
            return self.add('-');
        }
        self.add(hex(bytes))
    }
    fn uuid(self, uuid: &Uuid) -> Line {
        self.add(hex(uuid.as_bytes()))
    }
    /// The number of parts, then each.
    fn parts(self, parts: &[&[u8]]) -> Line {
        let counted = self.add(parts.len());
        parts.iter().fold(counted, |line, part| line.bytes(part))
    }
}

pub fn hex(bytes: &[u8]) -> String {
    bytes.iter().map(|byte| format!("{byte:02x}")).collect()
}
