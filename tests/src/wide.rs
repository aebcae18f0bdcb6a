//! Random models of up to 24 labels: objects of several kinds, each with a label of its own and labels that come or go one by one, so that the number
//! of reachable states can be chosen.

use crate::guided;
use crate::random::Random;
use crate::reader::LABELS;

/// So many labels, all but the first of which come to any object: 2^(n - 1) states. The labels are L0, L1 and so on; the question is line 2n + 1.
pub fn free(labels: usize, ask: &str) -> String {
    let mut text = declared(labels);
    text += "(new (L0))\n";
    text.extend((1..labels).map(|i| format!("(next x (L{i}) () (L0 x))\n")));
    text + ask
}

/// The lines that declare so many labels.
pub fn declared(labels: usize) -> String {
    (0..labels).map(|i| format!("(state L{i})\n")).collect()
}

/// A kind of objects: the label that they alone have, and the labels that come or go; 2^n states where these are n.
struct Kind {
    own: String,
    others: Vec<String>,
    /// Whether the other labels go instead of coming.
    go: bool,
}

impl Kind {
    /// The literal that says that a variable is of this kind, and now and then has or has not one of the other labels.
    fn what(&self, r: &mut Random, variable: &str) -> String {
        let is = format!("({} {variable})", self.own);
        if self.others.is_empty() || r.chance(50) {
            return is;
        }
        let other = &self.others[r.below(self.others.len())];
        if r.chance(50) {
            format!("{is} ({other} {variable})")
        } else {
            format!("{is} (not ({other} {variable}))")
        }
    }
}

/// The number as a sum of powers of two, given by their exponents, some of them parted once more.
fn parts(r: &mut Random, number: usize) -> Vec<usize> {
    let mut all: Vec<usize> = (0..LABELS).filter(|i| number >> i & 1 == 1).collect();
    for _ in 0..r.below(3) {
        let i = r.below(all.len());
        if all[i] > 0 {
            all[i] -= 1;
            all.push(all[i]);
        }
    }
    r.shuffle(&mut all);
    all
}

/// The kinds of a text with so many non-empty states, and the labels that none of them uses.
fn kinds(r: &mut Random, states: usize) -> (Vec<Kind>, Vec<String>) {
    let mut names: Vec<String> = (0..LABELS).map(|i| format!("L{i}")).collect();
    r.shuffle(&mut names);
    let parts = parts(r, states);
    let mut rest = names.split_off(parts.len());
    let mut kinds = Vec::new();
    for (own, part) in names.into_iter().zip(parts) {
        r.shuffle(&mut rest);
        kinds.push(Kind { own, others: rest[..part].to_vec(), go: r.chance(30) });
    }
    (kinds, rest)
}

/// The rules of a text, and how many there may be.
struct Rules {
    all: Vec<String>,
    most: usize,
}

/// What a line needs besides: nothing, or objects of an earlier kind, by themselves or by a derived relation, for which a rule is written.
fn helper(r: &mut Random, before: &[Kind], rules: &mut Rules) -> String {
    if before.is_empty() || r.chance(55) {
        return String::new();
    }
    let kind = &before[r.below(before.len())];
    let other = &before[r.below(before.len())];
    match r.below(4) {
        _ if rules.all.len() == rules.most => format!(" {}", kind.what(r, "y")),
        0 => format!(" {}", kind.what(r, "y")),
        1 => {
            rules.all.push(format!("(rule (N) {})", kind.what(r, "x")));
            " (N)".into()
        }
        2 => {
            rules.all.push(format!("(rule (E x y) {} {})", kind.what(r, "x"), other.what(r, "y")));
            " (E y z)".into()
        }
        _ => {
            rules.all.push(format!("(rule (F x y) {} {})", kind.what(r, "x"), other.what(r, "y")));
            " (F z y)".into()
        }
    }
}

/// The lines that make the objects of a kind, each of which may need objects of the kinds before.
fn lines(r: &mut Random, before: &[Kind], kind: &Kind, rules: &mut Rules) -> Vec<String> {
    let mut first = vec![kind.own.clone()];
    if kind.go {
        first.extend(kind.others.iter().cloned());
    }
    r.shuffle(&mut first);
    let mut lines = vec![format!("(new ({}){})", first.join(" "), helper(r, before, rules))];
    for other in &kind.others {
        let (plus, minus) = if kind.go { ("", other.as_str()) } else { (other.as_str(), "") };
        lines.push(format!("(next x ({plus}) ({minus}) ({} x){})", kind.own, helper(r, before, rules)));
    }
    lines
}

/// A line by which some object loses all labels, or is created without any.
fn wiping(r: &mut Random, kinds: &[Kind]) -> String {
    if r.chance(40) {
        return "(new ())".into();
    }
    let kind = &kinds[r.below(kinds.len())];
    let labels: Vec<&str> = kind.others.iter().chain([&kind.own]).map(|l| l.as_str()).collect();
    format!("(next x () ({}) ({} x))", labels.join(" "), kind.own)
}

/// Lines that are never taken, since no object has the label.
fn idle(r: &mut Random, unused: &[String], kinds: &[Kind]) -> Vec<String> {
    let Some(never) = unused.last() else { return Vec::new() };
    let kind = &kinds[r.below(kinds.len())];
    vec![format!("(new ({never}) ({never} x))"), format!("(next x ({never}) ({}) ({} x) ({never} y))", kind.own, kind.own)]
}

/// With more states than these a text has few rules, so that the plain meaning is not too slow.
pub const SMALL: usize = 20;

/// How many non-empty states a random text has.
fn aim(r: &mut Random) -> usize {
    match r.below(10) {
        0..=2 => 8 + r.below(12),
        3 => 20 + r.below(80),
        4 => 126,
        5..=6 => 127,
        7..=8 => 128 + r.below(2),
        _ => 1 << (8 + r.below(13)),
    }
}

/// A text that is accepted, with so many non-empty states as it aims at.
pub fn model(r: &mut Random) -> (String, usize) {
    let states = aim(r);
    let (kinds, rest) = kinds(r, states);
    let unused: Vec<String> = rest.into_iter().filter(|l| !kinds.iter().any(|k| k.others.contains(l))).collect();
    let mut rules = Rules { all: Vec::new(), most: if states > SMALL { 2 } else { 12 } };
    let mut clauses = Vec::new();
    for (i, kind) in kinds.iter().enumerate() {
        clauses.extend(lines(r, &kinds[..i], kind, &mut rules));
    }
    if r.chance(50) {
        clauses.push(wiping(r, &kinds));
    }
    if r.chance(50) {
        clauses.extend(idle(r, &unused, &kinds));
    }
    if states <= SMALL {
        clauses.push("(rule (E x y) (E x z) (F z y))".into());
    }
    clauses.extend(rules.all);
    r.shuffle(&mut clauses);
    let text = format!("{}(rel N 0)\n(rel E 2)\n(rel F 2)\n{}\n(ask (({} x)))\n", declared(LABELS), clauses.join("\n"), kinds[0].own);
    (guided::asking(r, &text), states)
}
