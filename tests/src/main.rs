//! Tests of the exported calls against a plain reader and a plain meaning of the bracket text.

mod asbestos;
mod beside;
mod buffers;
mod calls;
mod cases;
mod counter;
mod crowd;
mod damage;
mod games;
mod guess;
mod guided;
mod handins;
mod labels;
mod lent;
mod longest;
mod meaning;
mod models;
mod onward;
mod paired;
mod playing;
mod random;
mod reader;
mod report;
mod roaming;
mod salad;
mod search;
mod seeded;
mod shuffled;
mod standing;
mod strike;
mod subject;
mod ways;
mod wide;

use report::Report;
use std::sync::atomic::{AtomicUsize, Ordering};
use std::thread;

/// What the seeded models and the damaged texts are to meet at least.
fn covered_enough(report: &mut Report) {
    for call in ["analysis", "replay", "place"] {
        for number in 1..=12 {
            report.met_often(&format!("{call}: refused {number:2}"), 5);
        }
    }
    for call in ["replay", "place"] {
        report.met_often(&format!("{call}: refused 14"), 5);
        report.met_often(&format!("{call}: kept"), 500);
        report.met_often(&format!("{call}: broken"), 500);
    }
    report.met_often("search: certain and reached", 400);
    report.met_often("search: certain and unreached", 150);
    report.met_often("empty state: reachable, with a line that creates it", 100);
    report.met_often("empty state: reachable by clearing alone", 150);
    report.met_often("empty state: unreachable, with a line that would create it", 10);
    report.met_often("empty state: unreachable, with lines that clear", 100);
    report.met_often("empty state: unreachable, with no line for it", 10);
    for carried in ["a carried variable", "a carried pair"] {
        report.met_often(&format!("models reached with {carried}"), 50);
        report.met_often(&format!("models unreached with {carried}"), 40);
    }
    report.met_often("search: certain and reached with a pair", 150);
    report.met_often("search: certain and unreached with a pair", 100);
    report.met_often("search: no pair, though each variable by itself", 15);
    report.met_often("shown runs that change one carried object between stages", 30);
    report.met_often("shown runs that change both carried objects between stages", 10);
    report.met_often("random lent states with a pair that meets", 10);
    report.met_often("kept runs whose pair is one object", 80);
    report.met_often("kept runs whose pair is two objects", 80);
    report.met_often("played on after other objects", 400);
    for number in [1, 2, 3, 6, 12, 14, 15, 16, 17, 18] {
        report.met_often(&format!("from here: refused {number:2}"), 1);
    }
    report.met_often("from here: reached", 400);
    report.met_often("from here: Unreached", 300);
    report.met_often("from here: led about, reached", 300);
    report.met_often("from here: led about, unreached", 200);
    report.met_often("from here: a plain run is found", 300);
    report.met_often("from here: unreached where the plain question is reached", 50);
    report.met_often("from here: the first variable is carried", 200);
    report.met_often("from here: the first variable is in stage 1 alone", 200);
    for number in [1, 2, 3, 6, 12, 15, 19] {
        report.met_often(&format!("strike: refused {number:2}"), 1);
    }
    report.met_often("strike: unreached already", 100);
    report.met_often("strike: one line is enough", 100);
    report.met_often("strike: several lines", 30);
    report.met_often("strike: no choice does", 100);
    for number in [1, 2, 3, 6, 12, 15, 21, 22] {
        report.met_often(&format!("game: refused {number:2}"), 5);
    }
    report.met_often("game: the attacker at once", 4_000);
    report.met_often("game: the attacker within 1 to 3 moves", 1_500);
    report.met_often("game: the attacker within more than 3 moves", 500);
    report.met_often("game: the guardian", 10_000);
    for number in [1, 2, 3, 6, 12, 15, 23] {
        report.met_often(&format!("way: refused {number:2}"), 5);
    }
    report.met_often("way: 0 steps", 2_000);
    report.met_often("way: 1 step", 2_000);
    report.met_often("way: 2 or 3 steps", 1_000);
    report.met_often("way: more than 3 steps", 200);
    report.met_often("way: none", 4_000);
    report.met_often("way: to the empty state", 500);
    report.met_often("way: none to the empty state", 300);
    report.met_often("shuffles", 800);
    report.met_often("shuffles of two runs with objects", 500);
    report.met_often("shuffles of two runs that meet stages", 300);
    report.met_often("shuffles that a group heard as a kept run", 300);
    report.met_often("shuffles beyond 255 objects", 2);
    report.met_often("analysis: refused 15", 60);
    report.met_often("models with too many states", 40);
    report.met_often("models with more than 7 labels in use", 60);
    for empty in ["and", "without"] {
        report.met_often(&format!("models with 127 non-empty states {empty} the empty one"), 8);
    }
    report.met_often("search: over 127 states found, each by a run", 20);
    report.met_often("search: a run is kept where the analysis refuses 15", 20);
    report.met_often("led about: reached", 500);
    report.met_often("led about: unreached", 300);
    for states in [127, 255] {
        for given in ["kept", "broken"] {
            report.met_often(&format!("closure over {states} states: {given}"), 1);
        }
    }
    for said in ["reached", "unreached"] {
        report.met_often(&format!("asbestos: one kind, {said}"), 100);
        report.met_often(&format!("asbestos: seeded kinds, {said}"), 300);
        report.met_often(&format!("asbestos: nobody of the level has the mark at first, {said}"), 200);
    }
    report.met_often("asbestos: the mark found with a few processes", 300);
    report.met_often("asbestos: all processes found with a few", 300);
    report.met_often("asbestos: refused 20", 500);
    for who in ["nobody", "one object", "two objects", "three objects"] {
        report.met_often(&format!("stood by: {who}"), 300);
    }
}

/// The parts of the tests; the seeded models take longest, and come first.
const PARTS: [fn(&mut Report); 23] = [
    seeded::paired_models,
    seeded::models,
    seeded::wide_models,
    seeded::loose_models,
    seeded::large_models,
    seeded::roaming_models,
    seeded::counters,
    games::all,
    strike::all,
    onward::all,
    asbestos::all,
    longest::run,
    cases::all,
    models::all,
    standing::all,
    labels::all,
    salad::texts,
    handins::all,
    lent::all,
    crowd::all,
    buffers::all,
    shuffled::beyond,
    ways::all,
];

/// The stack of a thread, as large as that of a main thread mostly is.
const STACK: usize = 8 << 20;

/// Goes through the parts that are left, one after the other.
fn work(next: &AtomicUsize) -> Report {
    let mut report = Report::default();
    while let Some(part) = PARTS.get(next.fetch_add(1, Ordering::Relaxed)) {
        part(&mut report);
    }
    report
}

/// What all parts report, as many at a time as the machine has cores.
fn all() -> Report {
    let cores = thread::available_parallelism().map_or(1, usize::from);
    let next = AtomicUsize::new(0);
    thread::scope(|scope| {
        let start = |_| thread::Builder::new().stack_size(STACK).spawn_scoped(scope, || work(&next));
        let threads: Vec<_> = (0..cores).map(start).collect();
        let mut report = Report::default();
        for thread in threads {
            report.add(thread.expect("a thread is started").join().expect("a part ends"));
        }
        report
    })
}

fn main() {
    let mut report = all();
    covered_enough(&mut report);
    if !report.close() {
        std::process::exit(1);
    }
}
