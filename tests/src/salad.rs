//! Lines put together at random, mostly with several faults at once, so that the order of the rows decides.

use crate::random::Random;
use crate::report::Report;
use crate::subject::{fresh, Subject};

/// How many texts are tried.
const TEXTS: u64 = 4_000;

/// Names that are declared, of which the first two are state relations.
const NAMES: [&str; 5] = ["A", "B", "R", "W", "N"];
/// A name that is not declared, one spelled like a variable, and words that are no names.
const OTHERS: [&str; 4] = ["C", "x", "not", "1"];
const VARIABLES: [&str; 9] = ["x", "x", "x", "y", "y", "y", "z", "v", "A"];

/// A number that is mostly small.
fn few(r: &mut Random, most: usize) -> usize {
    if r.chance(90) {
        r.below(3.min(most + 1))
    } else {
        r.below(most + 1)
    }
}

fn name(r: &mut Random, names: &[&'static str]) -> &'static str {
    if r.chance(4) {
        return r.pick(&OTHERS);
    }
    r.pick(names)
}

fn atom(r: &mut Random) -> String {
    let name = name(r, &NAMES);
    let right = match name {
        "N" => 0,
        "W" => 2,
        _ => 1,
    };
    let count = if r.chance(92) { right } else { r.below(5) };
    let variables: String = (0..count).map(|_| format!(" {}", r.pick(&VARIABLES))).collect();
    format!("({name}{variables})")
}

fn literal(r: &mut Random) -> String {
    if r.chance(20) {
        return format!("(not {})", atom(r));
    }
    atom(r)
}

fn list(r: &mut Random) -> String {
    let length = if r.chance(4) { r.pick(&[7, 8, 24, 25]) } else { few(r, 9) };
    let names: Vec<&str> = (0..length).map(|_| name(r, &NAMES[..2])).collect();
    format!("({})", names.join(" "))
}

/// Some literals, each after a space.
fn body(r: &mut Random) -> String {
    (0..few(r, 10)).map(|_| format!(" {}", literal(r))).collect()
}

fn stage(r: &mut Random) -> String {
    format!(" ({}{})", literal(r), body(r))
}

fn question(r: &mut Random) -> String {
    let stages: String = (0..1 + few(r, 5)).map(|_| stage(r)).collect();
    format!("(ask{stages})")
}

fn line(r: &mut Random) -> String {
    match r.below(8) {
        0 => format!("(state {})", r.pick(&["C", "D", "A", "R", "not", "E1"])),
        1 => format!("(rel {} {})", r.pick(&["S", "T", "A", "W", "not"]), r.pick(&["0", "1", "2", "2", "3", "x"])),
        2..=3 => format!("(rule {}{})", atom(r), body(r)),
        4 => format!("(new {}{})", list(r), body(r)),
        5 => format!("(next {} {} {}{})", r.pick(&VARIABLES), list(r), list(r), body(r)),
        _ => question(r),
    }
}

/// Declarations and clauses before the random lines; now and then so many that there is no room for one more.
fn before(r: &mut Random) -> String {
    let mut text = String::from("(state A)\n(state B)\n(rel R 1)\n(rel W 2)\n(rel N 0)\n");
    if r.chance(10) {
        text += &"(new (A))\n".repeat(63 + r.below(2));
    }
    if r.chance(10) {
        text.extend((0..21 + r.below(2)).map(|i| format!("(state F{i})\n")));
        text.extend((0..4 + r.below(2)).map(|i| format!("(rel G{i} 2)\n")));
    }
    text
}

/// Every call answers a random text as the plain reader does.
pub fn texts(report: &mut Report) {
    for seed in 1..=TEXTS {
        let mut r = Random::new(seed + 3_000_000);
        let mut text = before(&mut r);
        for _ in 0..1 + r.below(4) {
            text += &(line(&mut r) + "\n");
        }
        let subject = Subject::new(text.as_bytes());
        subject.analyze(report);
        subject.replay(report, &[]);
        subject.place(report, &mut fresh(), 256 * 6);
    }
}
