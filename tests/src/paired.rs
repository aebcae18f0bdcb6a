//! Random models whose questions join the two carried variables, so that it matters which of the first goes with which of the second.

use crate::random::{Random, CARRIED};

const LABELS: [&str; 3] = ["A", "B", "C"];
const PAIRS: [&str; 2] = ["E", "F"];

/// What a variable is: a label that it has, and sometimes one that it has not.
fn what(r: &mut Random, variable: &str) -> String {
    let has = format!("({} {variable})", r.pick(&LABELS));
    if r.chance(20) {
        return format!("{has} (not ({} {variable}))", r.pick(&LABELS));
    }
    has
}

/// A line that takes an object from one label to another, now and then with a helper.
fn step(r: &mut Random) -> String {
    let (from, to) = (r.pick(&LABELS), r.pick(&LABELS));
    let left = if r.chance(70) { from } else { "" };
    let helper = if r.chance(30) { format!(" ({} y)", r.pick(&LABELS)) } else { String::new() };
    format!("(next x ({to}) ({left}) ({from} x){helper})")
}

/// A stage that joins the two, or speaks of one of them alone.
fn stage(r: &mut Random) -> String {
    let first = r.below(2);
    let (v, w) = (CARRIED[first], CARRIED[1 - first]);
    match r.below(4) {
        0 => format!("({})", what(r, v)),
        _ => format!("(({} {v} {w}))", r.pick(&PAIRS)),
    }
}

/// A text that is accepted.
pub fn model(r: &mut Random) -> String {
    let mut lines: Vec<String> = LABELS.iter().map(|l| format!("(state {l})")).collect();
    lines.extend(PAIRS.map(|p| format!("(rel {p} 2)")));
    lines.extend(LABELS.map(|l| format!("(new ({l}))")));
    lines.extend((0..r.below(3)).map(|_| step(r)));
    for pair in PAIRS {
        lines.extend((0..2 + r.below(3)).map(|_| format!("(rule ({pair} x y) {} {})", what(r, "x"), what(r, "y"))));
    }
    let stages: Vec<String> = (0..2 + r.below(3)).map(|_| stage(r)).collect();
    lines.push(format!("(ask {})", stages.join(" ")));
    lines.join("\n") + "\n"
}
