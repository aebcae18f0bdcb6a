//! The longest runs that documents 01 and 02 count: 127 states, each only from the one before, and carried objects that go round between stages.

use crate::calls::Answer;
use crate::report::Report;
use crate::subject::Subject;
use crate::wide::declared;

const NAMES: [&str; 7] = ["A", "B", "C", "D", "E", "F", "G"];

/// The literals on x that say of each named relation whether the number has its bit.
fn literals(names: &[&str], number: u32) -> String {
    let each = names.iter().enumerate().map(|(i, n)| match number >> i & 1 {
        1 => format!("({n} x)"),
        _ => format!("(not ({n} x))"),
    });
    each.collect::<Vec<String>>().join(" ")
}

/// The line that takes a state to the next number where it sets this bit and clears those below; a relation beside it makes the line safe.
fn carry(bit: usize, beside: &str) -> String {
    let below = literals(&NAMES[..=bit], (1 << bit) - 1);
    format!("(next x ({}) ({}) {below}{beside})\n", NAMES[bit], NAMES[..bit].join(" "))
}

/// A counter from 1 to 127 that goes on with 1, asked for objects that are 127, then 126, then 125, then 124; so many labels are declared before those
/// that count.
fn text(carried: &[&str], unused: usize) -> String {
    let mut text = declared(unused);
    text.extend(NAMES.iter().map(|n| format!("(state {n})\n")));
    text += "(new (A))\n";
    text.extend(NAMES[1..].iter().map(|n| carry(0, &format!(" ({n} x)"))));
    text.extend((1..7).map(|bit| carry(bit, "")));
    text += &format!("(next x () (B C D E F G) {})\n", literals(&NAMES, 127));
    let asked = [127, 126, 125, 124];
    text.extend(asked.map(|n| format!("(rel Is{n} 1)\n(rule (Is{n} x) {})\n", literals(&NAMES, n))));
    let stage = |n: u32| carried.iter().map(|v| format!("(Is{n} {v})")).collect::<Vec<String>>().join(" ");
    text + &format!("(ask {})\n", asked.map(|n| format!("({})", stage(n))).join(" "))
}

/// The counter is reached, all its states are listed, and its run is kept. One object of each state is made in 8,128 steps, and each carried one goes
/// the longest way, so the run has exactly as many places as are counted.
pub fn run(report: &mut Report) {
    for (carried, places, unused) in [(&["x"][..], 8_637, 0), (&["x", "y"], 9_142, 0), (&["x", "y"], 9_142, 17)] {
        let subject = Subject::new(text(carried, unused).as_bytes());
        let a = subject.analyze(report);
        report.check(a.answer == Answer::Reached(places), || format!("the counter with {carried:?}: {:?}", a.answer));
        report.check(a.states.iter().copied().eq((1..=127).map(|n| n << unused)), || format!("states of the counter: {:?}", a.states));
        let kept = subject.replay(report, &a.run);
        report.check(kept == Answer::Kept, || format!("the counter's run: {kept:?}"));
    }
}
