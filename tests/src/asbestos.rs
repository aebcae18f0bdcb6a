//! A desk for Asbestos labels: its texts are analyzed, and the verdicts compared with a plain search over processes that send each other messages.

use crate::calls::{self, Answer, Kinds, KINDS, RUN, TEXT, WORK};
use crate::random::Random;
use crate::report::Report;
use crate::subject::Subject;
use std::collections::{BTreeSet, HashSet};

/// Levels are star, 0, 1, 2, 3 in rising order, given as the numbers 0 to 4.
const LEVELS: u32 = 5;
const STAR: u32 = 0;

#[derive(Clone, Copy, Debug, PartialEq, Eq, PartialOrd, Ord, Hash)]
struct Process {
    send: u32,
    receive: u32,
    marked: bool,
}

/// All processes that differ.
fn everybody() -> Vec<Process> {
    let pairs = (0..LEVELS).flat_map(|send| (0..LEVELS).map(move |receive| (send, receive)));
    pairs.flat_map(|(send, receive)| [false, true].map(|marked| Process { send, receive, marked })).collect()
}

/// What a process is after another sent it a message, if that passes.
fn received(port: u32, from: Process, to: Process) -> Option<Process> {
    if from.send > to.receive || from.send > port {
        return None;
    }
    let send = if to.send == STAR { STAR } else { to.send.max(from.send) };
    Some(Process { send, receive: to.receive, marked: to.marked || from.marked })
}

/// All that a process can ever be. There may be any number of each kind, so whoever is there once can be there again beside all others.
fn ever(kinds: &[Process], port: u32) -> BTreeSet<Process> {
    let mut all: BTreeSet<Process> = kinds.iter().copied().collect();
    loop {
        let more: Vec<Process> = all.iter().flat_map(|from| all.iter().filter_map(|to| received(port, *from, *to))).collect();
        let before = all.len();
        all.extend(more);
        if all.len() == before {
            return all;
        }
    }
}

/// All that a process can be in a system of at most so many, each event by itself: a process is created, or one sends another a message.
fn with_few(kinds: &[Process], port: u32, most: usize) -> BTreeSet<Process> {
    let mut seen: HashSet<Vec<Process>> = HashSet::from([Vec::new()]);
    let mut left = vec![Vec::new()];
    while let Some(system) = left.pop() {
        let created = kinds.iter().filter(|_| system.len() < most).map(|k| [&system[..], &[*k]].concat());
        let pairs = (0..system.len()).flat_map(|i| (0..system.len()).map(move |j| (i, j)));
        let sent = pairs.filter_map(|(i, j)| {
            let mut after = system.clone();
            after[j] = received(port, system[i], system[j])?;
            Some(after)
        });
        let afters: Vec<Vec<Process>> = created.chain(sent).collect();
        for mut after in afters {
            after.sort_unstable();
            if seen.insert(after.clone()) {
                left.push(after);
            }
        }
    }
    seen.into_iter().flatten().collect()
}

/// Whether one of them has the mark and the receive level.
fn told(processes: &BTreeSet<Process>, level: u32) -> bool {
    processes.iter().any(|p| p.marked && p.receive == level)
}

/// The cells of some kinds; a mark is any number but 0, and the cells behind the kinds are any numbers.
fn cells(r: &mut Random, kinds: &[Process]) -> Kinds {
    let mut cells: Kinds = std::array::from_fn(|_| r.word());
    for (cell, kind) in cells.chunks_mut(3).zip(kinds) {
        let mark = if r.chance(50) { 1 } else { r.word().max(1) };
        cell.copy_from_slice(&[kind.send, kind.receive, if kind.marked { mark } else { 0 }]);
    }
    cells
}

/// The text for a system, which is written into an output that is large enough.
fn written(r: &mut Random, report: &mut Report, kinds: &[Process], port: u32, level: u32) -> Vec<u8> {
    let room = TEXT + r.below(3) * r.below(2_000);
    let desk = calls::asbestos(&cells(r, kinds), kinds.len(), port, level, room);
    let about = || format!("{:?} with {room} bytes to {kinds:?}, port {port}, level {level}", desk.text);
    report.check(desk.rest, || format!("output behind the text: {}", about()));
    report.check(desk.text.is_ok(), about);
    desk.text.unwrap_or_default()
}

/// Analyzes a text with buffers of row 12's sizes: the verdict, and how many states are reachable. The plain reader and the plain meaning look at it too
/// where that is quick.
fn analyzed(report: &mut Report, text: &[u8], plainly: bool) -> (Answer, usize) {
    let a = if plainly { Subject::new(text).analyze_with(report, WORK, RUN) } else { calls::analyze(text, WORK, RUN) };
    (a.answer, a.states.len())
}

/// Compares the verdict of a text with the search over messages, and the number of its states with the number of processes that differ.
fn compare(r: &mut Random, report: &mut Report, kinds: &[Process], port: u32, level: u32, all: &BTreeSet<Process>, plainly: bool, what: &str) {
    let text = written(r, report, kinds, port, level);
    let (answer, states) = analyzed(report, &text, plainly);
    let wanted = told(all, level);
    let right = if wanted { matches!(answer, Answer::Reached(_)) } else { answer == Answer::Unreached };
    let about = || format!("{answer:?} and {states} states to {kinds:?}, port {port}, level {level}; {wanted} and {} by messages", all.len());
    report.check(right, about);
    report.check(states == all.len(), about);
    let said = if wanted { "reached" } else { "unreached" };
    report.cover(&format!("asbestos: {what}, {said}"));
    if !kinds.iter().any(|k| k.marked && k.receive == level) {
        report.cover(&format!("asbestos: nobody of the level has the mark at first, {said}"));
    }
}

/// What is found with a few processes, event by event, is what can ever be.
fn few(report: &mut Report, kinds: &[Process], port: u32, all: &BTreeSet<Process>) {
    if all.len() > 16 {
        return;
    }
    let found = with_few(kinds, port, 3);
    report.check(found.is_subset(all), || format!("{found:?} is more than {all:?} for {kinds:?}, port {port}"));
    if found == *all {
        report.cover("asbestos: all processes found with a few");
    }
    for level in (0..LEVELS).filter(|level| told(&found, *level)) {
        report.check(told(all, level), || format!("the mark at level {level} of {kinds:?}, port {port}"));
        report.cover("asbestos: the mark found with a few processes");
    }
}

/// Each kind by itself, and seeded kinds, of which one may be given twice; with every port level and every asked level.
fn systems(r: &mut Random, report: &mut Report) {
    let single = everybody().into_iter().map(|k| (vec![k], "one kind"));
    let seeded: Vec<(Vec<Process>, &str)> = (0..300).map(|_| (picked(r), "seeded kinds")).collect();
    for (i, (kinds, what)) in single.chain(seeded).enumerate() {
        for port in 0..LEVELS {
            let all = ever(&kinds, port);
            few(report, &kinds, port, &all);
            for level in 0..LEVELS {
                compare(r, report, &kinds, port, level, &all, kinds.len() == 1 || i % 9 == 0 && port == level, what);
            }
        }
    }
}

/// Seeded kinds, few of them with the mark.
fn picked(r: &mut Random) -> Vec<Process> {
    let marked = r.pick(&[5, 20, 60]);
    let kind = |r: &mut Random| Process { send: r.below(5) as u32, receive: r.below(5) as u32, marked: r.chance(marked) };
    (0..1 + r.below(KINDS)).map(|_| kind(r)).collect()
}

/// 18 kinds from which 47 of the 50 processes come; and the longest text.
fn largest(r: &mut Random, report: &mut Report) {
    let needed = |p: &Process| p.send < 2 || p.send > p.receive;
    let kinds: Vec<Process> =
        everybody().into_iter().filter(|p| needed(p) && p.marked == (p.send == 4 && p.receive == 0)).filter(|p| (p.send, p.receive) != (3, 0)).collect();
    let all = ever(&kinds, 4);
    report.check(kinds.len() == KINDS && all.len() == 47, || format!("{} processes of {} kinds", all.len(), kinds.len()));
    compare(r, report, &kinds, 4, 2, &all, true, "seeded kinds");
    let highest = vec![Process { send: 1, receive: 4, marked: true }; KINDS];
    let text = written(r, report, &highest, 4, 0);
    report.check(text.len() == 2_132, || format!("{} bytes of the largest text", text.len()));
}

/// A number that is no level.
fn no_level(r: &mut Random) -> u32 {
    let any = LEVELS + r.word() % (u32::MAX - LEVELS);
    r.pick(&[5, 6, 255, 256, u32::MAX, any])
}

/// Systems with one thing wrong or more, which are refused 20 with line 0, and leave the output as it was.
fn damaged(r: &mut Random, report: &mut Report) {
    for _ in 0..1_000 {
        let kinds = picked(r);
        let (mut cells, mut count) = (cells(r, &kinds), kinds.len());
        let (mut port, mut level, mut room) = (r.below(5) as u32, r.below(5) as u32, TEXT);
        for _ in 0..1 + r.below(2) {
            match r.below(6) {
                0 => count = 0,
                1 => count = r.pick(&[19, 20, 54, 1 << 32, usize::MAX]),
                2 => cells[3 * r.below(kinds.len()) + r.below(2)] = no_level(r),
                3 => port = no_level(r),
                4 => level = no_level(r),
                _ => {
                    let any = r.below(TEXT);
                    room = r.pick(&[0, 1, 2_131, 2_132, TEXT - 1, any]);
                }
            }
        }
        let desk = calls::asbestos(&cells, count, port, level, room);
        let about = || format!("{:?} with {room} bytes to {count} of {cells:?}, port {port}, level {level}", desk.text);
        report.check(desk.text == Err(Answer::Refused(20, 0)), about);
        report.check(desk.rest, || format!("output after a refusal: {}", about()));
        report.cover("asbestos: refused 20");
    }
}

/// Runs all systems.
pub fn all(report: &mut Report) {
    let mut r = Random::new(9);
    systems(&mut r, report);
    largest(&mut r, report);
    damaged(&mut r, report);
}
