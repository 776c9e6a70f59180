//! Rounds of `set`, `stabilize`, `show` for timing: rounds [COUNT]. Prints the last answer, and the seconds to standard error.

use garovymba::{Fault, Session};
use std::io::Write;
use std::time::Instant;

fn main() -> Result<(), Fault> {
    let rounds = std::env::args().nth(1).and_then(|count| count.parse().ok()).unwrap_or(100_000);
    let start = Instant::now();
    let mut session = Session::open()?;
    for line in ["var x int 3", "let y add(x, 4)", "observe o y", "stabilize"] {
        session.line(line.as_bytes())?;
    }
    let mut text = Vec::new();
    for i in 0..rounds {
        text.clear();
        write!(text, "set x {i}").expect("a vector takes all");
        session.line(&text)?;
        session.line(b"stabilize")?;
        session.line(b"show o")?;
    }
    let last = session.line(b"show o")?.1.to_vec();
    drop(session);
    print!("{}", String::from_utf8_lossy(&last));
    eprintln!("Rust: {:.3} s", start.elapsed().as_secs_f64());
    Ok(())
}
