//! The readers, each over a whole body in memory; each answers the number of events.

use oracle::invalid;
use oracle::run::Pace;
use oracle::run::Run;
use std::hint::black_box;
use std::io;

extern "C" {
    fn jolzerv_count_each(second: bool, body: *const u8, length: usize) -> u64;
    fn jolzerv_count_lent(second: bool, body: *const u8, length: usize) -> u64;
    fn jolzerv_count_many(second: bool, body: *const u8, length: usize) -> u64;
    fn jolzerv_list_body(
        second: bool,
        body: *const u8,
        length: usize,
        clients: *mut [i32; 128],
        times: *mut [i32; 128],
        ticks: *mut [i32; 128],
        two: *mut [u64; 2],
    ) -> usize;
    fn jolzerv_read_kept(
        second: bool,
        body: *const u8,
        length: usize,
        rows: *mut [i32; 5120],
        inputs: *mut [i32; 5120],
        formers: *mut [i32; 5120],
        two: *mut [usize; 2],
    ) -> usize;
    fn jolzerv_rewind_body(
        second: bool,
        body: *const u8,
        length: usize,
        tick: i32,
        rows: *mut [i32; 5120],
        inputs: *mut [i32; 5120],
        formers: *mut [i32; 5120],
        marks: *mut [u8; 128],
        xs: *mut [i32; 128],
        ys: *mut [i32; 128],
        held: *mut [u8; 128],
        numbers: *mut [i32; 1280],
        teams: *mut [i32; 256],
    ) -> u8;
    fn jolzerv_start_rewind(
        second: bool,
        body: *const u8,
        length: usize,
        tick: i32,
        rows: *mut [i32; 5120],
        inputs: *mut [i32; 5120],
        formers: *mut [i32; 5120],
        marks: *mut [u8; 128],
        xs: *mut [i32; 128],
        ys: *mut [i32; 128],
        held: *mut [u8; 128],
        numbers: *mut [i32; 1280],
        teams: *mut [i32; 256],
        three: *mut [usize; 3],
        two: *mut [i32; 2],
    ) -> u8;
    fn jolzerv_go_on(
        tick: i32,
        events: usize,
        rows: *const [i32; 5120],
        inputs: *const [i32; 5120],
        formers: *const [i32; 5120],
        marks: *mut [u8; 128],
        xs: *mut [i32; 128],
        ys: *mut [i32; 128],
        held: *mut [u8; 128],
        numbers: *mut [i32; 1280],
        teams: *mut [i32; 256],
        three: *mut [usize; 3],
        two: *mut [i32; 2],
    ) -> u8;
}

/// A reel, ten numbers for each of 512 places.
pub struct Reel {
    pub rows: [i32; 5120],
    pub inputs: [i32; 5120],
    pub formers: [i32; 5120],
    /// The next place, and how many rows are kept.
    pub counts: [usize; 2],
}

impl Reel {
    pub fn new() -> Reel {
        Reel {
            rows: [0; 5120],
            inputs: [0; 5120],
            formers: [0; 5120],
            counts: [0; 2],
        }
    }
}

/// What a rewind under way changes, call by call; its reel stands beside it.
#[derive(Clone)]
pub struct UnderWay {
    marks: [u8; 128],
    xs: [i32; 128],
    ys: [i32; 128],
    held: [u8; 128],
    numbers: [i32; 1280],
    teams: [i32; 256],
    /// The reel's next place and count, and how many rows are newer than the TickStart.
    three: [usize; 3],
    /// The copy's tick, and whether an event didn't fit.
    two: [i32; 2],
}

impl UnderWay {
    pub fn new() -> UnderWay {
        UnderWay {
            marks: [0; 128],
            xs: [0; 128],
            ys: [0; 128],
            held: [0; 128],
            numbers: [0; 1280],
            teams: [0; 256],
            three: [0; 3],
            two: [0; 2],
        }
    }
}

pub fn libtw2(version: u8, body: &[u8]) -> io::Result<u64> {
    let mut run =
        Run::new(version, body, Pace::Whole).ok_or_else(|| invalid("neither 01 nor 02"))?;
    let mut events = 0;
    while let Some(event) = run.read().map_err(|_| invalid("the body is refused"))? {
        black_box(&event);
        events += 1;
    }
    Ok(events)
}

/// The proved reader by value, one event a call.
pub fn each(version: u8, body: &[u8]) -> io::Result<u64> {
    // SAFETY: a pointer and a length of one slice, which the call only reads
    Ok(unsafe { jolzerv_count_each(version == 2, body.as_ptr(), body.len()) })
}

/// The proved reader on lent memory, one event a call.
pub fn lent(version: u8, body: &[u8]) -> io::Result<u64> {
    // SAFETY: a pointer and a length of one slice, which the call only reads
    Ok(unsafe { jolzerv_count_lent(version == 2, body.as_ptr(), body.len()) })
}

/// The proved reader, many events a call.
pub fn many(version: u8, body: &[u8]) -> io::Result<u64> {
    // SAFETY: a pointer and a length of one slice, which the call only reads
    Ok(unsafe { jolzerv_count_many(version == 2, body.as_ptr(), body.len()) })
}

/// The proved reader, many events a call, with a reel beside.
pub fn kept(version: u8, body: &[u8], reel: &mut Reel) -> io::Result<u64> {
    // SAFETY: a pointer and a length of one slice, which the call only reads, and pointers to four arrays that it fills
    let events = unsafe {
        jolzerv_read_kept(
            version == 2,
            body.as_ptr(),
            body.len(),
            &mut reel.rows,
            &mut reel.inputs,
            &mut reel.formers,
            &mut reel.counts,
        )
    };
    black_box(&*reel);
    Ok(events as u64)
}

/// The same, then a rewind to a tick: 0, or the number of the refusal.
pub fn rewound(version: u8, body: &[u8], tick: i32, reel: &mut Reel) -> u8 {
    let (mut marks, mut xs, mut ys) = ([0; 128], [0; 128], [0; 128]);
    let (mut held, mut numbers, mut teams) = ([0; 128], [0; 1280], [0; 256]);
    // SAFETY: a pointer and a length of one slice, which the call only reads, and pointers to nine arrays that it fills
    let answer = unsafe {
        jolzerv_rewind_body(
            version == 2,
            body.as_ptr(),
            body.len(),
            tick,
            &mut reel.rows,
            &mut reel.inputs,
            &mut reel.formers,
            &mut marks,
            &mut xs,
            &mut ys,
            &mut held,
            &mut numbers,
            &mut teams,
        )
    };
    black_box((&marks, &xs, &ys, &held, &numbers, &teams));
    answer
}

/// Reads with a reel beside and starts a rewind to a tick: 0, or the number of the refusal.
pub fn start(version: u8, body: &[u8], tick: i32, reel: &mut Reel, rewind: &mut UnderWay) -> u8 {
    // SAFETY: a pointer and a length of one slice, which the call only reads, and pointers to eleven arrays that it fills
    unsafe {
        jolzerv_start_rewind(
            version == 2,
            body.as_ptr(),
            body.len(),
            tick,
            &mut reel.rows,
            &mut reel.inputs,
            &mut reel.formers,
            &mut rewind.marks,
            &mut rewind.xs,
            &mut rewind.ys,
            &mut rewind.held,
            &mut rewind.numbers,
            &mut rewind.teams,
            &mut rewind.three,
            &mut rewind.two,
        )
    }
}

/// A call of a rewind under way: 0 if it has ended, 255 if it is going, or the number of the refusal.
pub fn go_on(tick: i32, events: usize, reel: &Reel, rewind: &mut UnderWay) -> u8 {
    // SAFETY: pointers to three arrays that the call only reads, and to eight that it changes
    unsafe {
        jolzerv_go_on(
            tick,
            events,
            &reel.rows,
            &reel.inputs,
            &reel.formers,
            &mut rewind.marks,
            &mut rewind.xs,
            &mut rewind.ys,
            &mut rewind.held,
            &mut rewind.numbers,
            &mut rewind.teams,
            &mut rewind.three,
            &mut rewind.two,
        )
    }
}

/// The results list by the proved reader: how many rows it has.
pub fn list(version: u8, body: &[u8]) -> io::Result<u64> {
    let (mut clients, mut times, mut ticks) = ([0; 128], [0; 128], [0; 128]);
    let mut two = [0; 2];
    // SAFETY: a pointer and a length of one slice, which the call only reads, and pointers to four arrays that it fills
    let rows = unsafe {
        jolzerv_list_body(
            version == 2,
            body.as_ptr(),
            body.len(),
            &mut clients,
            &mut times,
            &mut ticks,
            &mut two,
        )
    };
    black_box((&clients, &times, &ticks, &two));
    Ok(rows as u64)
}
