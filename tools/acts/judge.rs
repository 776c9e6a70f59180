//! Judges an act by the contract of its call: what was answered, and what is seen afterwards.

use crate::acts::{Act, Answer, Points, Seen};
use crate::model::{Coming, GREATEST_HEIGHT, Model, TOO_LONG, Web};
use std::collections::{BTreeMap, BTreeSet};

/// What is wrong.
pub type Fault = String;

macro_rules! demand {
    ($holds:expr, $($words:tt)*) => {
        if !$holds {
            return Err(format!($($words)*));
        }
    };
}

/// What stands after an act, where the answer and all that is seen fit the contract.
pub fn judge(
    before: &Model,
    act: &Act,
    answer: &Answer,
    points: &Points,
    seen: &Seen,
    time: usize,
) -> Result<Model, Fault> {
    let web = before.web(points.len());
    let needed = before.needed(&web);
    let mut after = left_by(before, &needed, act, answer, points)?;
    demand!(after.heights.keys().eq(seen.heights.keys()), "other points are there");
    if let Act::Link(p, q) = *act {
        check_link(before, &web, p, q, answer, &seen.heights)?;
        after.heights.clone_from(&seen.heights);
    }
    check_seen(&after, points, seen, time)?;
    Ok(after)
}

/// What an act leaves where it was answered so. The heights that a link leaves are open.
fn left_by(
    before: &Model,
    needed: &BTreeSet<usize>,
    act: &Act,
    answer: &Answer,
    points: &Points,
) -> Result<Model, Fault> {
    let mut after = before.clone();
    match (act, answer) {
        (Act::Add(..) | Act::RootOn(_) | Act::Link(..), Answer::NoMemory) => {
            demand!(kit::was_refused(), "no memory was refused");
        }
        (Act::Add(p, height), Answer::Done) => {
            after.heights.insert(*p, *height);
        }
        (Act::DropPoint(p), Answer::Done) => {
            after.heights.remove(p);
        }
        (Act::RootOn(p), Answer::Newly(newly)) => {
            demand!(*newly != needed.contains(p), "it tells whether the point was needed before");
            *after.roots.entry(*p).or_default() += 1;
        }
        (Act::Link(p, q), Answer::Newly(newly)) => {
            demand!(*newly != needed.contains(q), "it tells whether the kid was needed before");
            *after.links.entry((*p, *q)).or_default() += 1;
        }
        (Act::Link(..), Answer::Path(_) | Answer::Over(_)) => {}
        (Act::RootOff(p), Answer::Done) => {
            take_one(&mut after.roots, *p);
            sweep(&mut after, needed, points);
        }
        (Act::Unlink(p, q), Answer::Done) => {
            take_one(&mut after.links, (*p, *q));
            sweep(&mut after, needed, points);
        }
        (Act::Reduce(p, kept), Answer::Done) => {
            after.links.retain(|link, _| link.0 != *p || link.1 == *kept);
            sweep(&mut after, needed, points);
        }
        (Act::Insert(p), Answer::Done) => {
            after.heap.insert(*p);
        }
        (Act::InsertReaders(q, skipped), Answer::Done) => {
            let readers = before.links.keys().filter(|link| link.1 == *q).map(|link| link.0);
            after.heap.extend(readers.filter(|reader| !skipped.contains(reader)));
        }
        (Act::Remove(p), Answer::Done) => {
            after.heap.remove(p);
        }
        (Act::PopLeast, Answer::Popped(None)) => demand!(before.heap.is_empty(), "the heap isn't empty"),
        (Act::PopLeast, Answer::Popped(Some(p))) => {
            demand!(after.heap.remove(p), "the point wasn't in the heap");
            let least = before.heap.iter().map(|other| before.height(*other)).min();
            demand!(least == Some(before.height(*p)), "the point's height isn't the least of the heap");
        }
        _ => return Err("that is no answer to the act".to_string()),
    }
    Ok(after)
}

fn take_one<K: Ord>(counts: &mut BTreeMap<K, u32>, key: K) {
    let count = counts.remove(&key).expect("it is there");
    if count > 1 {
        counts.insert(key, count - 1);
    }
}

/// What isn't reached from a root loses its links and leaves the heap, and leaves that no longer are reached go.
fn sweep(after: &mut Model, needed_before: &BTreeSet<usize>, points: &Points) {
    let needed = after.needed(&after.web(points.len()));
    after.links.retain(|link, _| needed.contains(&link.0));
    after.heap.retain(|p| needed.contains(p));
    let goes = |p: &usize| points.leaves.contains(p) && needed_before.contains(p) && !needed.contains(p);
    after.heights.retain(|p, _| !goes(p));
}

/// What a link answers, and the heights that it leaves.
fn check_link(
    before: &Model,
    web: &Web,
    p: usize,
    q: usize,
    answer: &Answer,
    heights: &BTreeMap<usize, u32>,
) -> Result<(), Fault> {
    let coming = before.coming(web, p, q);
    let mut linked = web.clone();
    linked.link(p, q);
    match answer {
        Answer::Newly(_) => {
            demand!(coming != Coming::Path, "the kid leads to the reader");
            demand!(coming != Coming::Over, "a chain of {TOO_LONG} points is made");
        }
        Answer::Path(list) => {
            demand!(list.first() == Some(&q) && list.last() == Some(&p), "no path from the kid to the reader");
            demand!(is_chain(web, list), "the path isn't one");
            demand!(list.iter().collect::<BTreeSet<_>>().len() == list.len(), "a point of the path is told twice");
            demand!(*heights == before.heights, "a path leaves heights as they are");
        }
        Answer::Over(list) => {
            demand!(coming != Coming::Path, "the kid leads to the reader, and a chain is told");
            demand!(list.len() == TOO_LONG, "the chain has {} points", list.len());
            demand!(is_chain(&linked, list), "the chain isn't one");
            let depths = web.depths();
            let exact = |x: &usize| heights.get(x) == Some(&depths[*x]);
            demand!(web.reached([p, q]).iter().all(exact), "a point below the ends isn't as high as its chain is long");
        }
        _ => {}
    }
    if before.height(q) < before.height(p) {
        demand!(*heights == before.heights, "the reader is higher already, and heights change");
    }
    // (those that lead to the reader, and what these and the kid lead to)
    let near = web.reached(web.leading(p).into_iter().chain([q]));
    let may_be = |(x, height): (&usize, &u32)| heights[x] == *height || near.contains(x);
    demand!(before.heights.iter().all(may_be), "a height changes of a point that isn't near");
    Ok(())
}

fn is_chain(web: &Web, list: &[usize]) -> bool {
    list.windows(2).all(|pair| web.kids[pair[0]].contains(&pair[1]))
}

/// All that is seen is so, and what stands between any two calls is.
fn check_seen(after: &Model, points: &Points, seen: &Seen, time: usize) -> Result<(), Fault> {
    demand!(after.heights == seen.heights, "a height changes");
    for (&(p, q), times) in &seen.links_by_kids {
        demand!(after.links.get(&(p, q)) == Some(times), "{p} reads {q} {times} times, as the kids tell");
        demand!(seen.heights.contains_key(&p) && seen.heights.contains_key(&q), "{p} reads {q}, and one isn't there");
        demand!(seen.heights[&q] < seen.heights[&p], "{p} reads {q} and isn't higher");
    }
    for ((p, q), times) in &after.links {
        demand!(seen.links_by_kids.contains_key(&(*p, *q)), "{p} reads {q} {times} times, and the kids don't tell");
    }
    demand!(seen.links_by_readers == seen.links_by_kids, "the readers tell other links than the kids");
    for (p, q) in points.pairs_asked(seen, time) {
        demand!(seen.reads.contains(&(p, q)) == after.reads(p, q), "whether {p} reads {q}");
    }
    demand!(seen.heights.values().all(|height| *height <= GREATEST_HEIGHT), "a height passes {GREATEST_HEIGHT}");
    demand!(seen.roots.iter().eq(after.roots.keys()), "the roots are others");
    let needed = after.needed(&after.web(points.len()));
    demand!(seen.needed == needed, "{:?} are needed, or aren't", &seen.needed ^ &needed);
    demand!(seen.heap == after.heap, "{:?} are in the heap, or aren't", &seen.heap ^ &after.heap);
    demand!(needed.iter().all(|p| seen.heights.contains_key(p)), "a needed point isn't there");
    Ok(())
}
