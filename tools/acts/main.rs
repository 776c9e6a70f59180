//! Random acts on necessary graphs. Each is judged beside a plain model of maps and sets, which was written from the
//! contracts of `NecessaryGraph`.
//!
//! The crates are translated to plain Rust (`plain.py`), so that bodies are tried before they are proved, and wrong
//! ones too. The same seed gives the same acts, over the same sources.

mod acts;
mod chooser;
mod counts;
mod judge;
mod model;

use acts::{Act, Answer, Points};
use chooser::Chooser;
use counts::Counts;
use model::Model;
use necessary_graph::NecessaryGraph;
use std::collections::VecDeque;
use std::panic::{AssertUnwindSafe, catch_unwind};
use std::process::ExitCode;
use std::sync::Mutex;

const USAGE: &str = "usage: acts [--seed S] [--acts N] [--session ACTS]";
/// How many acts are printed where one is judged wrong.
const LAST: usize = 12;

struct Options {
    seed: u64,
    acts: u64,
    session: u64,
}

fn options(words: &[String]) -> Option<Options> {
    let mut options = Options { seed: 1, acts: 40_000, session: 2_000 };
    for pair in words.chunks(2) {
        let number: u64 = pair.get(1)?.parse().ok()?;
        match pair[0].as_str() {
            "--seed" => options.seed = number,
            "--acts" => options.acts = number,
            "--session" => options.session = number.max(1),
            _ => return None,
        }
    }
    Some(options)
}

static PANICKED: Mutex<String> = Mutex::new(String::new());

fn main() -> ExitCode {
    let words: Vec<String> = std::env::args().skip(1).collect();
    let Some(options) = options(&words) else {
        eprintln!("{USAGE}");
        return ExitCode::from(2);
    };
    std::panic::set_hook(Box::new(|panic| {
        *PANICKED.lock().expect("one thread alone") = panic.to_string().replace('\n', " ");
    }));
    let mut counts = Counts::default();
    let mut wrong = None;
    let mut session = 0;
    while wrong.is_none() && counts.acts() < options.acts {
        wrong = session_of(&options, session, &mut counts).err();
        session += 1;
    }
    counts.print(session);
    if let Some(told) = &wrong {
        println!("seed {}, session {session}: {told}", options.seed);
    }
    println!("{} passed, {} failed", counts.acts(), u32::from(wrong.is_some()));
    if wrong.is_none() { ExitCode::SUCCESS } else { ExitCode::FAILURE }
}

/// Does the acts of one session on a graph of its own. What is wrong is told behind the last acts.
fn session_of(options: &Options, session: u64, counts: &mut Counts) -> Result<(), String> {
    let (mut chooser, points) = Chooser::new(options.seed, session);
    let mut graph = acts::no_points();
    let mut model = Model::default();
    let mut last: VecDeque<String> = VecDeque::new();
    for time in 0..options.session {
        if counts.acts() == options.acts {
            break;
        }
        let (act, memory) = chooser.next(&model);
        if last.len() == LAST {
            last.pop_front();
        }
        last.push_back(format!("{time:5}  {act:?}"));
        let done = || one_act(&mut graph, &points, &model, &act, memory, time as usize);
        let judged = catch_unwind(AssertUnwindSafe(done));
        let judged = judged.unwrap_or_else(|_| Err(PANICKED.lock().expect("one thread alone").clone()));
        match judged {
            Ok((answer, after)) => {
                counts.count(&model, &act, &answer, &after, points.len());
                model = after;
            }
            Err(told) => {
                let acts = last.make_contiguous().join("\n");
                // (such a graph may be in no state to be dropped)
                std::mem::forget(graph);
                return Err(format!("{told}, of {} points, after\n{acts}", points.len()));
            }
        }
    }
    Ok(())
}

fn one_act(
    graph: &mut NecessaryGraph,
    points: &Points,
    before: &Model,
    act: &Act,
    memory: u64,
    time: usize,
) -> Result<(Answer, Model), String> {
    kit::allow(memory);
    let answer = points.perform(graph, act);
    if kit::was_refused() && !act.takes_memory() {
        return Err("the act asks for memory".to_string());
    }
    let seen = points.see(graph, time);
    let after = judge::judge(before, act, &answer, points, &seen, time);
    match after {
        Ok(after) => Ok((answer, after)),
        Err(told) => Err(format!("{told}; it was answered {answer:?}")),
    }
}
