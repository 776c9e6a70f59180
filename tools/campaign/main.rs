//! The random campaign: sessions of random lines, of which every answer is judged by evaluation from scratch.
//!
//! `run` gives the lines to sessions of the embedded library, in this process. `write` and `judge` are for an engine
//! that is run elsewhere: one writes a script, and the other judges what was answered to it. `answer` answers a script
//! by the model alone.

mod commands;
mod counts;
mod evaluation;
mod judge;
mod state;
mod syntax;
mod values;
mod writer;

#[cfg(all(library, not(translated)))]
extern crate garovymba as incr;
#[cfg(translated)]
#[path = "translated.rs"]
mod incr;
#[cfg(library)]
mod run;

use counts::{Count, Counts};
use judge::Judge;
use std::io::{Read, Write};
use std::process::ExitCode;
use writer::Writer;

const USAGE: &str = "usage: campaign run [--seed S] [--stabilizes N] [--size NAMES] [--threads T]
       campaign write [--seed S] [--stabilizes N] [--size NAMES]
       campaign judge SCRIPT TRANSCRIPT
       campaign answer < SCRIPT";

pub struct Options {
    seed: u64,
    stabilizes: u64,
    size: usize,
    threads: u64,
}

fn options(words: &[String]) -> Option<Options> {
    let mut options = Options { seed: 1, stabilizes: 1000, size: 60, threads: 1 };
    for pair in words.chunks(2) {
        let number: u64 = pair.get(1)?.parse().ok()?;
        match pair[0].as_str() {
            "--seed" => options.seed = number,
            "--stabilizes" => options.stabilizes = number,
            "--size" => options.size = number as usize,
            "--threads" => options.threads = number.max(1),
            _ => return None,
        }
    }
    Some(options)
}

fn main() -> ExitCode {
    let words: Vec<String> = std::env::args().skip(1).collect();
    match words.split_first() {
        Some((word, rest)) if word == "run" => options(rest).map(run),
        Some((word, rest)) if word == "write" => options(rest).map(|options| write(&options)),
        Some((word, [script, transcript])) if word == "judge" => Some(judge_files(script, transcript)),
        Some((word, [])) if word == "answer" => Some(answer()),
        _ => None,
    }
    .unwrap_or_else(|| {
        eprintln!("{USAGE}");
        ExitCode::from(2)
    })
}

#[cfg(library)]
fn run(options: Options) -> ExitCode {
    run::run(&options)
}

#[cfg(not(library))]
fn run(_: Options) -> ExitCode {
    eprintln!("campaign: built without the library; `make -C tools/campaign` links it");
    ExitCode::from(2)
}

/// Prints what was met, and how many answers were right and wrong.
pub fn report(counts: &Counts, failed: u64) -> ExitCode {
    counts.print();
    println!("{} passed, {failed} failed", counts.of(Count::Lines));
    if failed == 0 { ExitCode::SUCCESS } else { ExitCode::FAILURE }
}

/// Writes a script, as if each stabilize that may be accepted were.
fn write(options: &Options) -> ExitCode {
    let mut judge = Judge::new();
    let mut writer = Writer::of_rounds(options.seed, options.size, options.stabilizes as usize);
    let mut script = Vec::new();
    while let Some(line) = writer.next(&mut judge) {
        let answer = judge.own_answer(line.as_bytes());
        judge.line(line.as_bytes(), &answer).unwrap_or_else(|_| unreachable!("the model's own answer is lawful"));
        script.extend_from_slice(line.as_bytes());
        script.push(b'\n');
        if line == "stabilize" && judge.state().stabilizes == options.stabilizes {
            let shows = judge.state().observers.iter().map(|observer| format!("show {}\n", observer.name));
            script.extend(shows.collect::<String>().into_bytes());
            break;
        }
    }
    written(&script)
}

fn answer() -> ExitCode {
    let mut script = Vec::new();
    if let Err(fault) = std::io::stdin().read_to_end(&mut script) {
        eprintln!("campaign: {fault}");
        return ExitCode::from(3);
    }
    let mut judge = Judge::new();
    let mut transcript = Vec::new();
    for line in lines(&script) {
        let answer = judge.own_answer(line);
        judge.line(line, &answer).unwrap_or_else(|_| unreachable!("the model's own answer is lawful"));
        transcript.extend(answer);
    }
    written(&transcript)
}

fn written(bytes: &[u8]) -> ExitCode {
    match std::io::stdout().write_all(bytes) {
        Ok(()) => ExitCode::SUCCESS,
        Err(_) => ExitCode::from(4),
    }
}

fn lines(text: &[u8]) -> impl Iterator<Item = &[u8]> {
    text.split_inclusive(|byte| *byte == b'\n').map(|line| line.strip_suffix(b"\n").unwrap_or(line))
}

/// Whether a printed line tells of a watched observer. No other answer has one of these words for its second.
fn is_notice(printed: &[u8]) -> bool {
    let second = printed.split(|byte| matches!(byte, b' ' | b'\n')).nth(1);
    matches!(second, Some(b"init" | b"change" | b"invalid"))
}

/// Judges a transcript: each line of a script prints one line, or none where it asks for nothing; behind that of a stabilize
/// stand its notices.
fn judge_files(script: &str, transcript: &str) -> ExitCode {
    let (script, transcript) = match (std::fs::read(script), std::fs::read(transcript)) {
        (Ok(script), Ok(transcript)) => (script, transcript),
        (Err(fault), _) | (_, Err(fault)) => {
            eprintln!("campaign: {fault}");
            return ExitCode::from(3);
        }
    };
    let mut judge = Judge::new();
    let mut answers = transcript.split_inclusive(|byte| *byte == b'\n').peekable();
    for (number, line) in lines(&script).enumerate() {
        let mut given = Vec::new();
        if !matches!(syntax::parse(line), Ok(None)) {
            given.extend_from_slice(answers.next().unwrap_or(b""));
        }
        if matches!(syntax::parse(line), Ok(Some(syntax::Command::Stabilize))) {
            while let Some(notice) = answers.next_if(|printed| is_notice(printed)) {
                given.extend_from_slice(notice);
            }
        }
        if let Err(disagreement) = judge.line(line, &given) {
            println!("line {}: {}\n{disagreement}", number + 1, String::from_utf8_lossy(line));
            return report(&judge.counts, 1);
        }
    }
    let more = answers.next().is_some();
    if more {
        println!("the transcript goes on after the script's end");
    }
    report(&judge.counts, u64::from(more))
}
