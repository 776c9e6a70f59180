//! Sessions as the crate `embed/rust/garovymba` has them, over the crates as they are translated to plain Rust. Each third line, if it
//! is no stabilize, finds memory a few times and then no more. That is to change nothing, so it is given once more.

use kit::{AllocError, Global, Vec};
use session::Did;
use std_library::StdLib;

/// How a line was taken.
#[derive(Clone, Copy, Debug, PartialEq, Eq)]
pub enum Took {
    Blank,
    Accepted,
    Refused(u8),
}

pub struct Session {
    session: session::Session<StdLib>,
    printed: Vec<u8>,
    lines: u64,
}

const LONGEST_LINE: usize = 4096;

impl Session {
    pub fn open() -> Result<Session, AllocError> {
        Ok(Session { session: session::Session::new(Global, StdLib::new()), printed: Vec::new(Global), lines: 0 })
    }

    /// Gives the session its next line, and what it printed.
    pub fn line(&mut self, text: &[u8]) -> Result<(Took, &[u8]), AllocError> {
        self.printed.clear();
        self.lines += 1;
        if text.len() > LONGEST_LINE {
            self.session.too_long(&mut self.printed)?;
            return Ok((Took::Refused(2), &self.printed));
        }
        if self.lines % 3 == 0 && text != b"stabilize" {
            kit::allow(self.lines / 3 % 9);
            let answer = self.session.line(text, &mut self.printed);
            kit::allow(u64::MAX);
            match answer {
                Ok(did) => return Ok((took(did), &self.printed)),
                Err(AllocError) => assert!(self.printed.is_empty(), "a line that found no memory printed something"),
            }
        }
        let did = self.session.line(text, &mut self.printed)?;
        Ok((took(did), &self.printed))
    }
}

fn took(did: Did) -> Took {
    match did {
        Did::Blank => Took::Blank,
        Did::Accepted => Took::Accepted,
        Did::Refused(number) => Took::Refused(number),
    }
}
