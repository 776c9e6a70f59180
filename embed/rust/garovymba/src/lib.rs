//! Sessions of Garovymba: a safe type round a slot of `garovymba_sys`.

mod words;

use garovymba_sys::{incr_close, incr_line, incr_notice, incr_open, incr_rest, incr_slot, incr_told};
use std::ptr::null_mut;

/// How a line was taken.
#[derive(Clone, Copy, Debug, PartialEq, Eq)]
pub enum Took {
    /// It asks for nothing.
    Blank,
    Accepted,
    /// It was refused with this number.
    Refused(u8),
}

/// What a notice tells of an observer.
#[derive(Clone, Copy, Debug, PartialEq, Eq)]
pub enum Kind {
    /// What it shows, for the first time since it is watched.
    Init,
    /// Another value.
    Change,
    /// That what it shows turned to invalid.
    Invalid,
}

/// A notice of the last accepted stabilize. Values are as `show` prints them.
#[derive(Clone, Debug, PartialEq, Eq)]
pub struct Notice {
    pub kind: Kind,
    /// The observer's name; empty where it ended since.
    pub name: String,
    /// What was told of it before, which only a change has.
    pub before: String,
    /// What it shows now.
    pub now: String,
}

/// Why there is no session, or a line was not taken.
#[derive(Clone, Copy, Debug, PartialEq, Eq)]
pub enum Fault {
    NoMemory,
    /// The session has taken 2^30 lines.
    TooManyLines,
}

impl std::error::Error for Fault {}

/// A session. The pointer in it keeps it on its thread: it is neither `Send` nor `Sync`, and it isn't `Clone`. Moving it moves the
/// slot's bytes, which leaves one slot that is used.
///
/// Nothing that was printed is lost for want of memory: what isn't handed out waits, and the next answer, or `rest`, hands it out.
pub struct Session {
    slot: incr_slot,
    room: Vec<u8>,
    /// How many bytes at the front of the room were read from the session and not handed out.
    held: usize,
    waiting: usize,
}

impl Session {
    pub fn open() -> Result<Session, Fault> {
        let mut slot = incr_slot { live: 0, at: null_mut() };
        // SAFETY: the slot is zeros, and nothing else refers to it.
        match unsafe { incr_open(&mut slot) } {
            1 => Ok(Session { slot, room: Vec::new(), held: 0, waiting: 0 }),
            _ => Err(Fault::NoMemory),
        }
    }

    /// Gives the session its next line, without its newline. The bytes are what was printed and not handed out before; those for which
    /// there is no memory wait. At `NoMemory` the line wasn't taken, as incr.h says.
    pub fn line(&mut self, text: &[u8]) -> Result<(Took, &[u8]), Fault> {
        let given = self.room.len() - self.held;
        let mut count = 0;
        // SAFETY: the slot has the session that `open` put there, text and room are as long as is said, and nothing else refers to
        // the slot, the room or the count.
        let how = unsafe {
            incr_line(&mut self.slot, text.as_ptr().cast(), text.len(), self.room.as_mut_ptr().add(self.held), given, &mut count)
        };
        self.hold(given, count);
        let took = match how {
            0 => Took::Blank,
            1 => Took::Accepted,
            -3 => return Err(Fault::TooManyLines),
            refused @ 101..=355 => Took::Refused((refused - 100) as u8),
            _ => return Err(Fault::NoMemory),
        };
        Ok((took, self.hand_out()))
    }

    /// How many bytes wait, since there was no memory for them when they were printed last.
    pub fn waiting(&self) -> usize {
        self.waiting
    }

    /// Hands out what waits: all of it, or at `NoMemory` all of it waits still.
    pub fn rest(&mut self) -> Result<&[u8], Fault> {
        self.hold(0, self.waiting);
        if self.waiting > 0 {
            return Err(Fault::NoMemory);
        }
        Ok(self.hand_out())
    }

    /// What the last accepted stabilize told, in the order in which observers were made. It can be read until the next one, also where
    /// that one answered `NoMemory`, and so can this: it changes nothing.
    pub fn notices(&mut self) -> Result<Vec<Notice>, Fault> {
        let mut all = Vec::new();
        let mut room = Vec::new();
        while let Some(notice) = self.notice(all.len(), &mut room)? {
            all.try_reserve(1).map_err(|_| Fault::NoMemory)?;
            all.push(notice);
        }
        Ok(all)
    }

    /// How many stabilizes were accepted: the number of the one whose notices can be read.
    pub fn round(&mut self) -> u64 {
        self.read_notice(usize::MAX, &mut []).1.round
    }

    /// The notice with this number, which is read into the room.
    fn notice(&mut self, number: usize, room: &mut Vec<u8>) -> Result<Option<Notice>, Fault> {
        let (mut what, mut told) = self.read_notice(number, room);
        let length = told.name + told.before + told.now;
        if length > room.len() {
            room.try_reserve(length - room.len()).map_err(|_| Fault::NoMemory)?;
            room.resize(length, 0);
            (what, told) = self.read_notice(number, room);
        }
        let kind = match what {
            0 => return Ok(None),
            1 => Kind::Init,
            2 => Kind::Change,
            3 => Kind::Invalid,
            _ => return Err(Fault::NoMemory),
        };
        let (name, values) = room.split_at(told.name);
        let (before, values) = values.split_at(told.before);
        Ok(Some(Notice { kind, name: text_of(name)?, before: text_of(before)?, now: text_of(&values[..told.now])? }))
    }

    /// Reads the notice with this number where there is room for it: what the library answers, and what it tells beside.
    fn read_notice(&mut self, number: usize, room: &mut [u8]) -> (i32, incr_told) {
        let mut told = incr_told::default();
        // SAFETY: as in `line`.
        let what = unsafe { incr_notice(&mut self.slot, number, room.as_mut_ptr(), room.len(), &mut told) };
        (what, told)
    }

    /// Holds `count` more bytes: they stand in the room already where what was given of it is enough for them, and are fetched else.
    fn hold(&mut self, given: usize, count: usize) {
        self.waiting = 0;
        if count > given {
            let length = self.held + count;
            if length > self.room.len() && self.room.try_reserve(length - self.room.len()).is_err() {
                self.waiting = count;
                return;
            }
            self.room.resize(length.max(self.room.len()), 0);
            let mut read = 0;
            // SAFETY: as in `line`.
            unsafe { incr_rest(&mut self.slot, self.room.as_mut_ptr().add(self.held), count, &mut read) };
        }
        self.held += count;
    }

    fn hand_out(&mut self) -> &[u8] {
        let length = std::mem::take(&mut self.held);
        &self.room[..length]
    }
}

/// A printed part of a notice, which is ASCII, as a string of its own.
fn text_of(part: &[u8]) -> Result<String, Fault> {
    let mut text = String::new();
    text.try_reserve(part.len()).map_err(|_| Fault::NoMemory)?;
    text.extend(part.iter().map(|byte| char::from(*byte)));
    Ok(text)
}

impl Drop for Session {
    fn drop(&mut self) {
        // SAFETY: the slot has the session that `open` put there, and is used no more.
        unsafe { incr_close(&mut self.slot) };
    }
}
