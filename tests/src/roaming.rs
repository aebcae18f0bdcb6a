//! Random models in which every set of labels is reachable and many lines relabel, so that one object can be led about in many ways.

use crate::random::Random;

const LABELS: [&str; 7] = ["A", "B", "C", "D", "E", "F", "G"];
/// With at most so many labels each set of them is created; with more of them all are, and lost one by one.
const CREATED: usize = 5;

/// The literal that says whether x has a label.
fn literal(label: &str, has: bool) -> String {
    if has {
        return format!("({label} x)");
    }
    format!("(not ({label} x))")
}

/// Some literals on x, the first without `not`.
fn some(r: &mut Random, labels: &[&str], most: usize) -> String {
    let mut literals = vec![literal(r.pick(labels), true)];
    literals.extend((0..r.below(most)).map(|_| literal(r.pick(labels), r.chance(50))));
    literals.join(" ")
}

/// The literals that say of x which labels it has.
fn whole(r: &mut Random, labels: &[&str]) -> String {
    let set = 1 + r.below((1 << labels.len()) - 1);
    (0..labels.len()).map(|i| literal(labels[i], set >> i & 1 == 1)).collect::<Vec<String>>().join(" ")
}

/// Some labels, as a list has them.
fn list(r: &mut Random, labels: &[&str]) -> String {
    (0..r.pick(&[0, 1, 1, 1, 2])).map(|_| r.pick(labels)).collect::<Vec<&str>>().join(" ")
}

/// A line that relabels what it fits, now and then with a helper.
fn step(r: &mut Random, labels: &[&str]) -> String {
    let (plus, minus) = (list(r, labels), list(r, labels));
    let helper = if r.chance(20) { format!(" ({} y)", r.pick(labels)) } else { String::new() };
    format!("(next x ({plus}) ({minus}) {}{helper})", some(r, labels, 4))
}

/// The lines that make every set of labels.
fn made(labels: &[&str]) -> Vec<String> {
    if labels.len() > CREATED {
        let lost = labels.iter().map(|l| format!("(next x () ({l}) ({l} x))"));
        return lost.chain([format!("(new ({}))", labels.join(" "))]).collect();
    }
    let set = |n: usize| (0..labels.len()).filter(|i| n >> i & 1 == 1).map(|i| labels[i]).collect::<Vec<&str>>().join(" ");
    (1..1 << labels.len()).map(|n| format!("(new ({}))", set(n))).collect()
}

/// A text that is accepted, with a question of one stage and one variable.
pub fn model(r: &mut Random) -> String {
    let labels = &LABELS[..r.pick(&[2, 3, 3, 3, 4, 4, 4, 5, 5, 7])];
    let mut lines: Vec<String> = labels.iter().map(|l| format!("(state {l})")).collect();
    let mut clauses = made(labels);
    clauses.extend((0..6 + r.below(15)).map(|_| step(r, labels)));
    r.shuffle(&mut clauses);
    lines.extend(clauses);
    let question = if r.chance(60) { whole(r, labels) } else { some(r, labels, 4) };
    lines.push(format!("(ask ({question}))"));
    lines.join("\n") + "\n"
}
