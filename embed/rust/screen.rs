//! A price screen, as c/screen.c is. With the name of a script it runs that one instead, and prints the transcript.

use garovymba::{Kind, Session, Took};
use std::error::Error;
use std::io::{BufWriter, Write, stdout};

const DECLARATIONS: [&str; 17] = [
    "# A price screen: a price is shown where its spread is narrow, and the best of them beside it.",
    "var acme_bid int 100",
    "var acme_ask int 104",
    "var bolt_bid int 96",
    "var bolt_ask int 98",
    "var widest int 5",
    "let acme_spread add(acme_ask, neg(acme_bid))",
    "let bolt_spread add(bolt_ask, neg(bolt_bid))",
    "let acme pick(lt(acme_spread, widest), acme_ask, 0)",
    "let bolt pick(lt(bolt_spread, widest), bolt_ask, 0)",
    "let best pick(lt(acme, bolt), bolt, acme)",
    "observe acme acme",
    "observe bolt bolt",
    "observe best best",
    "watch acme",
    "watch bolt",
    "watch best",
];
const TICKS: [(&str, i64); 9] = [
    ("acme_bid", 101),
    ("acme_ask", 107),
    ("bolt_ask", 99),
    ("bolt_bid", 97),
    ("widest", 7),
    ("bolt_ask", 120),
    ("acme_ask", 103),
    ("acme_ask", 103),
    ("cash_ask", 50),
];

/// Brings the screen up to date: prints only what changed.
fn refresh(session: &mut Session, out: &mut impl Write) -> Result<(), Box<dyn Error>> {
    session.line(b"stabilize")?;
    for notice in session.notices()? {
        match notice.kind {
            Kind::Change => writeln!(out, "{}: {} -> {}", notice.name, notice.before, notice.now)?,
            Kind::Init | Kind::Invalid => writeln!(out, "{}: {}", notice.name, notice.now)?,
        }
    }
    Ok(())
}

fn main() -> Result<(), Box<dyn Error>> {
    let mut out = BufWriter::new(stdout().lock());
    let mut session = Session::open()?;
    if let Some(name) = std::env::args_os().nth(1) {
        let script = std::fs::read(name)?;
        let whole = script.strip_suffix(b"\n").unwrap_or(&script);
        if !script.is_empty() {
            for line in whole.split(|byte| *byte == b'\n') {
                out.write_all(session.line(line)?.1)?;
            }
        }
        out.write_all(session.rest()?)?;
        return Ok(out.flush()?);
    }
    for line in DECLARATIONS {
        let (took, _) = session.line(line.as_bytes())?;
        assert_eq!(took == Took::Blank, line.starts_with('#'));
    }
    refresh(&mut session, &mut out)?;
    for (name, price) in TICKS {
        let (took, _) = session.line(format!("set {name} {price}").as_bytes())?;
        if let Took::Refused(_) = took {
            writeln!(out, "{name} is no price: {}", took.words())?;
        }
        refresh(&mut session, &mut out)?;
    }
    Ok(out.flush()?)
}
