//! Runs the campaign over sessions of the embedded library.

use crate::counts::{Count, Counts};
use crate::incr::{Session, Took};
use crate::judge::{Judge, refused_with};
use crate::writer::Writer;
use crate::{Options, report};
use std::process::ExitCode;

/// Sessions that disagree until a thread gives up.
const MOST_FAILURES: u64 = 3;
/// Plain evaluation and the engine go as deep as a chain is long.
const STACK: usize = 64 << 20;

/// A session of the library, and the judge of what it answers.
struct Judged {
    session: Session,
    judge: Judge,
}

impl Judged {
    fn open() -> Judged {
        Judged { session: Session::open().expect("there is memory"), judge: Judge::new() }
    }

    /// Gives both a line. What disagrees is told.
    fn line(&mut self, line: &[u8]) -> Result<(), String> {
        let (took, printed) = self.session.line(line).expect("there is memory");
        let refused = if let Took::Refused(number) = took { Some(number) } else { None };
        if refused_with(printed) != refused || printed.is_empty() != (took == Took::Blank) {
            return Err(format!("{took:?}, and printed {}", String::from_utf8_lossy(printed)));
        }
        self.judge.line(line, printed).map_err(|disagreement| disagreement.to_string())
    }
}

pub fn run(options: &Options) -> ExitCode {
    let (mut counts, mut failed) = (Counts::default(), 0);
    std::thread::scope(|scope| {
        let threads: Vec<_> = (0..options.threads)
            .map(|thread| {
                let part = move || campaign(options, thread);
                std::thread::Builder::new().stack_size(STACK).spawn_scoped(scope, part).expect("a thread starts")
            })
            .collect();
        for thread in threads {
            let part = thread.join().expect("the thread ends");
            counts.add(&part.0);
            failed += part.1;
        }
    });
    report(&counts, failed)
}

/// A thread's part: what was counted, and how many sessions disagreed. Each session has a seed of its own.
fn campaign(options: &Options, thread: u64) -> (Counts, u64) {
    let (mut counts, mut failed) = (Counts::default(), 0);
    while counts.stabilizes() < options.stabilizes / options.threads && failed < MOST_FAILURES {
        let seed = options.seed + thread + counts.of(Count::Sessions) * options.threads;
        counts.count(Count::Sessions, 1);
        let mut judged = Judged::open();
        let mut writer = Writer::new(seed, options.size);
        let mut script: Vec<String> = Vec::new();
        while let Some(line) = writer.next(&mut judged.judge) {
            let answer = judged.line(line.as_bytes());
            script.push(line);
            if let Err(told) = answer {
                failed += 1;
                println!("seed {seed}, line {}: {}\n{told}", script.len(), script.last().expect("just pushed"));
                println!("the script, cut down:\n{}", cut_down(script).join("\n"));
                break;
            }
        }
        counts.add(&judged.judge.counts);
    }
    (counts, failed)
}

/// Leaves out lines, many at once and then fewer, as long as an answer still disagrees.
fn cut_down(mut script: Vec<String>) -> Vec<String> {
    let mut width = script.len() / 2;
    while width > 0 {
        let mut from = script.len().saturating_sub(width);
        loop {
            let mut shorter = script.clone();
            shorter.drain(from..(from + width).min(script.len()));
            if let Some(length) = disagrees(&shorter) {
                shorter.truncate(length);
                script = shorter;
            }
            if from == 0 {
                break;
            }
            from = from.saturating_sub(width).min(script.len());
        }
        width /= 2;
    }
    script
}

/// How many lines of a script there are up to the first that disagrees.
fn disagrees(script: &[String]) -> Option<usize> {
    let mut judged = Judged::open();
    script.iter().position(|line| judged.line(line.as_bytes()).is_err()).map(|last| last + 1)
}
