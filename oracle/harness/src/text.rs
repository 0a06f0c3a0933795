//! The line of an event.

use libtw2_teehistorian::format;
use libtw2_teehistorian::format::item;
use libtw2_teehistorian::raw::Item;
use std::io;
use std::io::Write;

pub fn event(event: &Item) -> String {
    let mut line = Vec::new();
    write_event(&mut line, event).expect("a vector takes every byte");
    String::from_utf8(line).expect("a line is ASCII")
}

/// Writes the line without its end.
pub fn write_event(out: &mut impl Write, event: &Item) -> io::Result<()> {
    match event {
        Item::TickStart(tick) => write!(out, "start {tick}"),
        Item::TickEnd(tick) => write!(out, "end {tick}"),
        Item::PlayerNew(i) => write!(out, "new {} {} {}", i.cid, i.pos.x, i.pos.y),
        Item::PlayerChange(i) => write!(
            out,
            "change {} {} {} {} {}",
            i.cid, i.pos.x, i.pos.y, i.old_pos.x, i.old_pos.y
        ),
        Item::PlayerOld(i) => write!(out, "old {} {} {}", i.cid, i.pos.x, i.pos.y),
        Item::Input(i) => {
            write!(out, "input {}", i.cid)?;
            write_numbers(out, &i.input)
        }
        _ => write_record(out, &record(event).expect("every other event is a record")),
    }
}

/// Each number after a space.
pub fn write_numbers(out: &mut impl Write, list: &[i32]) -> io::Result<()> {
    list.iter().try_for_each(|number| write!(out, " {number}"))
}

/// The same as text.
pub fn numbers(list: &[i32]) -> String {
    list.iter().map(|number| format!(" {number}")).collect()
}

fn write_record(out: &mut impl Write, record: &format::Item) -> io::Result<()> {
    match record.cid() {
        Some(client) => write!(out, "record {} {client}", kind(record)),
        None => write!(out, "record {} -", kind(record)),
    }
}

/// The kind number of a record that the reader hands on as it stands.
fn kind(record: &format::Item) -> i32 {
    match record {
        format::Item::Message(_) => item::MESSAGE,
        format::Item::Join(_) => item::JOIN,
        format::Item::Drop(_) => item::DROP,
        format::Item::ConsoleCommand(_) => item::CONSOLE_COMMAND,
        _ => item::EX,
    }
}

/// The record in an event that holds one.
pub fn record<'a>(event: &Item<'a>) -> Option<format::Item<'a>> {
    Some(match event.clone() {
        Item::TickStart(_) | Item::TickEnd(_) => return None,
        Item::PlayerNew(_) | Item::PlayerChange(_) | Item::PlayerOld(_) => return None,
        Item::Input(_) => return None,
        Item::Message(i) => i.into(),
        Item::Join(i) => i.into(),
        Item::Drop(i) => i.into(),
        Item::ConsoleCommand(i) => i.into(),
        Item::Antibot(i) => i.into(),
        Item::AuthInit(i) => i.into(),
        Item::AuthLogin(i) => i.into(),
        Item::AuthLogout(i) => i.into(),
        Item::Ddnetver(i) => i.into(),
        Item::DdnetverOld(i) => i.into(),
        Item::Joinver6(i) => i.into(),
        Item::Joinver7(i) => i.into(),
        Item::PlayerFinish(i) => i.into(),
        Item::PlayerName(i) => i.into(),
        Item::PlayerReady(i) => i.into(),
        Item::PlayerRejoin(i) => i.into(),
        Item::PlayerSwap(i) => i.into(),
        Item::PlayerTeam(i) => i.into(),
        Item::TeamFinish(i) => i.into(),
        Item::TeamLoadFailure(i) => i.into(),
        Item::TeamLoadSuccess(i) => i.into(),
        Item::TeamPractice(i) => i.into(),
        Item::TeamSaveFailure(i) => i.into(),
        Item::TeamSaveSuccess(i) => i.into(),
        Item::UnknownEx(i) => i.into(),
    })
}
