//! As c/faults.c, by `Session`. What Rust allocates fails in its turn too.

use garovymba::{Fault, Session};
use std::error::Error;
use std::io::{BufWriter, Write, stdout};
use std::os::raw::{c_int, c_long, c_uint};

unsafe extern "C" {
    fn failing_from(first: c_long, which: c_uint);
    fn failing_watch(on: c_int);
    fn failing_asked() -> c_long;
}

const FAILING_MOST: c_uint = 31;

/// Lets allocations fail in the call.
fn watched<T>(call: impl FnOnce() -> T) -> T {
    // SAFETY: the functions of failing.c write numbers of their own, and this program has one thread.
    unsafe { failing_watch(1) };
    let given = call();
    // SAFETY: as above.
    unsafe { failing_watch(0) };
    given
}

/// Prints what the last stabilize told, if that is a later one than before.
fn print_notices(session: &mut Session, round: &mut u64, out: &mut impl Write) -> Result<(), Box<dyn Error>> {
    if session.round() == *round {
        return Ok(());
    }
    *round = session.round();
    let notices = loop {
        match watched(|| session.notices()) {
            Ok(notices) => break notices,
            Err(Fault::NoMemory) => {}
            Err(fault) => return Err(fault.into()),
        }
    };
    for notice in notices {
        writeln!(out, "told {} {},{},{}", notice.kind as u8 + 1, notice.name, notice.before, notice.now)?;
    }
    Ok(())
}

fn run(script: &str, out: &mut impl Write) -> Result<(), Box<dyn Error>> {
    let mut session = loop {
        match watched(Session::open) {
            Ok(session) => break session,
            Err(Fault::NoMemory) => {}
            Err(fault) => return Err(fault.into()),
        }
    };
    let mut round = 0;
    for line in script.lines() {
        loop {
            let was_taken = match watched(|| session.line(line.as_bytes())) {
                Ok((_, printed)) => {
                    out.write_all(printed)?;
                    true
                }
                Err(Fault::NoMemory) => false,
                Err(fault) => return Err(fault.into()),
            };
            print_notices(&mut session, &mut round, out)?;
            if was_taken {
                break;
            }
        }
    }
    // (what waits is told, and is handed out once there is memory)
    let waiting = session.waiting();
    let rest = session.rest()?;
    assert!(waiting <= rest.len());
    out.write_all(rest)?;
    Ok(out.write_all(b"--\n")?)
}

fn main() -> Result<(), Box<dyn Error>> {
    let script = std::fs::read_to_string(std::env::args_os().nth(1).ok_or("no script")?)?;
    let mut out = BufWriter::new(stdout().lock());
    for which in (1..=FAILING_MOST).step_by(2) {
        for first in 0.. {
            // SAFETY: as in `watched`.
            unsafe { failing_from(first, which) };
            run(&script, &mut out)?;
            // SAFETY: as in `watched`.
            if first >= unsafe { failing_asked() } {
                break;
            }
        }
    }
    Ok(out.flush()?)
}
