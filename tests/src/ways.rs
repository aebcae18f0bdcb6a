//! The shortest way between labels (document 02, R-13): held to a plain breadth-first search over the steps of one object.

use crate::beside::Stands;
use crate::calls::{self, Way, RUN, WORK};
use crate::counter::Counter;
use crate::random::Random;
use crate::report::Report;
use crate::subject::Subject;
use crate::wide::free;
use std::collections::{BTreeMap, VecDeque};

/// With at most so many states all ways of a seeded model are asked for, and with more of them so many.
const FEW: usize = 8;
const SOME: usize = 16;

/// The fewest steps from a state to each state that the object can be led to.
fn fewest(stands: &Stands, from: u32) -> BTreeMap<u32, usize> {
    let mut found = BTreeMap::from([(from, 0)]);
    let mut queue = VecDeque::from([from]);
    while let Some(state) = queue.pop_front() {
        let steps = found[&state] + 1;
        for next in stands[&state].steps.values() {
            if !found.contains_key(next) {
                found.insert(*next, steps);
                queue.push_back(*next);
            }
        }
    }
    found
}

/// The state that a row of lines leads the object to, if each of them holds for it in its turn.
fn led(stands: &Stands, from: u32, lines: &[u32]) -> Option<u32> {
    lines.iter().try_fold(from, |state, line| stands[&state].steps.get(line).copied())
}

/// The refusal where the text is accepted: for too many states, or for one that is not reachable.
fn refusal(subject: &Subject, from: u32, to: u32) -> Option<(u32, u32)> {
    let Some(states) = subject.states() else { return Some((15, 0)) };
    let reachable = states.contains(&from) && states.contains(&to);
    (!reachable).then_some((23, 0))
}

/// How long a way is.
fn kind(steps: Option<usize>) -> &'static str {
    match steps {
        None => "way: none",
        Some(0) => "way: 0 steps",
        Some(1) => "way: 1 step",
        Some(2..=3) => "way: 2 or 3 steps",
        Some(_) => "way: more than 3 steps",
    }
}

/// Asks for a way with buffers of these sizes, and compares refusal, steps and buffers with the plain ones.
pub fn put(report: &mut Report, subject: &Subject, from: u32, to: u32, work: usize, places: usize) -> Way {
    let w = calls::way(&subject.text, from, to, work, places);
    let about = || format!("{:?} from {from} to {to} with {work} bytes and {places} places in\n{}", w.answer, subject.show());
    report.check(w.area && w.table, || format!("area {}, table {}: {}", w.area, w.table, about()));
    if let Some((number, line)) = subject.refusal(&[(12, work < WORK || places < RUN)]).or_else(|| refusal(subject, from, to)) {
        report.check(w.answer == Way::Refused(number, line), || format!("{number} @ {line} expected: {}", about()));
        report.cover(&format!("way: refused {number:2}"));
        return w.answer;
    }
    let stands = subject.stands().expect("a way that is not refused has few states");
    let steps = fewest(stands, from).get(&to).copied();
    let right = match &w.answer {
        Way::Lines(lines) => Some(lines.len()) == steps && led(stands, from, lines) == Some(to),
        Way::Nowhere => steps.is_none(),
        _ => false,
    };
    report.check(right, || format!("{steps:?} steps expected: {}", about()));
    report.cover(kind(steps));
    if to == 0 && from != 0 {
        report.cover(if steps.is_some() { "way: to the empty state" } else { "way: none to the empty state" });
    }
    w.answer
}

/// Asks for the ways between the reachable states of a seeded model, all or some of them, and for one of a state that may not be reachable.
pub fn pairs(report: &mut Report, r: &mut Random, subject: &Subject) {
    let states: Vec<u32> = subject.states().map_or(Vec::new(), |all| all.iter().copied().collect());
    if states.len() <= FEW {
        for (from, to) in states.iter().flat_map(|from| states.iter().map(move |to| (*from, *to))) {
            put(report, subject, from, to, WORK + 9, RUN + 5);
        }
    } else {
        for _ in 0..SOME {
            put(report, subject, r.pick(&states), r.pick(&states), WORK + 9, RUN + 5);
        }
    }
    let last = states.last().copied().unwrap_or(1);
    let strange = r.pick(&[0, 1, 3, last ^ 1, last + 1, last << 1, 1 << 24 | last, 1 << 31 | last, u32::MAX]);
    let (from, to) = r.pick(&[(last, strange), (strange, last), (strange, strange)]);
    put(report, subject, from, to, r.pick(&[WORK, WORK, WORK - 1]), r.pick(&[RUN, RUN, RUN - 1]));
}

/// A way that is the only shortest one, known by hand, or none.
fn known(report: &mut Report, subject: &Subject, from: u32, to: u32, wanted: Option<&[u32]>) {
    let way = put(report, subject, from, to, WORK, RUN);
    let wanted = wanted.map_or(Way::Nowhere, |lines| Way::Lines(lines.to_vec()));
    report.check(way == wanted, || format!("{way:?}, not {wanted:?} from {from} to {to}:\n{}", subject.show()));
}

/// A refusal that is known by hand.
fn refused(report: &mut Report, subject: &Subject, (from, to): (u32, u32), (work, places): (usize, usize), (number, line): (u32, u32)) {
    let way = put(report, subject, from, to, work, places);
    report.check(way == Way::Refused(number, line), || format!("{way:?}, not {number} @ {line} from {from} to {to} with {work} bytes and {places} places"));
}

/// From {A} on to {B}, {C}, {D} and the empty state by lines 6, 7, 8 and 11, and back from {C} to {A} by line 10; line 9 leads {B} nowhere else. Line 7
/// needs an {A}, and line 10 a {D}. The question does not matter.
const ROUND: &str = "(state A)\n(state B)\n(state C)\n(state D)\n(new (A))\n(next x (B) (A) (A x))\n(next x (C) (B) (B x) (A y))\n(next x (D) (C) (C x))\n(next x () () (B x))\n(next x (A) (C) (C x) (D y))\n(next x () (D) (D x))\n(ask ((A x)) ((B x) (D y)))\n";

/// All ways of a small text, to and from the empty state too; the shorter of two ways, whichever stands first; a helper that no run gives; `new` lines are
/// no steps.
fn by_hand(report: &mut Report) {
    let round = Subject::new(ROUND.as_bytes());
    for (from, to, wanted) in [
        (1, 1, Some(&[][..])),
        (1, 2, Some(&[6])),
        (1, 4, Some(&[6, 7])),
        (1, 8, Some(&[6, 7, 8])),
        (1, 0, Some(&[6, 7, 8, 11])),
        (2, 1, Some(&[7, 10])),
        (2, 2, Some(&[])),
        (2, 4, Some(&[7])),
        (2, 8, Some(&[7, 8])),
        (2, 0, Some(&[7, 8, 11])),
        (4, 1, Some(&[10])),
        (4, 2, Some(&[10, 6])),
        (4, 4, Some(&[])),
        (4, 8, Some(&[8])),
        (4, 0, Some(&[8, 11])),
        (8, 1, None),
        (8, 2, None),
        (8, 4, None),
        (8, 8, Some(&[])),
        (8, 0, Some(&[11])),
        (0, 1, None),
        (0, 8, None),
        (0, 0, Some(&[])),
    ] {
        known(report, &round, from, to, wanted);
    }
    let start = "(state A)\n(state B)\n(state C)\n(state D)\n(new (A))\n";
    let [ab, bc, cd, ac] = [("A", "B"), ("B", "C"), ("C", "D"), ("A", "C")].map(|(from, to)| format!("(next x ({to}) ({from}) ({from} x))\n"));
    for (lines, from, to, wanted) in [
        (format!("{ab}{bc}{cd}{ac}"), 1, 8, Some(&[9, 8][..])),
        (format!("{ac}{cd}{bc}{ab}"), 1, 8, Some(&[6, 7])),
        ("(new (B))\n(new (C) (B x))\n".into(), 1, 2, None),
        ("(new (B))\n(next x (B) (A) (A x) (D y))\n".into(), 1, 2, None),
    ] {
        known(report, &Subject::new(format!("{start}{lines}(ask ((A x)))\n").as_bytes()), from, to, wanted);
    }
}

/// The example of README: an account is probed, gets a new password and is locked, and nothing undoes the probing.
fn example(report: &mut Report) {
    let account = Subject::new(include_bytes!("../../examples/account.eon"));
    let way = put(report, &account, 3, 13, WORK, RUN);
    report.check([&[9, 11, 13], &[9, 13, 11]].iter().any(|lines| way == Way::Lines(lines.to_vec())), || format!("{way:?} in the example"));
    known(report, &account, 13, 3, None);
}

/// The longest ways: through all 127 states of a counter, and on to the empty one.
fn long(report: &mut Report) {
    for first in [0, 17] {
        let mut counter = Counter::new(first..first + 7);
        let up = counter.adding(0);
        let mut lines: Vec<u32> = (1..127u32).map(|n| up[n.trailing_ones() as usize]).collect();
        lines.push(counter.wiping(127));
        let subject = Subject::new(counter.asked(127).as_bytes());
        for (from, to) in [(1, 127), (1, 2), (1, 64), (63, 65), (2, 127), (127, 127)] {
            known(report, &subject, from << first, to << first, Some(&lines[from as usize - 1..to as usize - 1]));
        }
        for from in [1, 2, 126, 127] {
            known(report, &subject, from << first, 0, Some(&lines[from as usize - 1..]));
            known(report, &subject, 0, from << first, None);
        }
        for (from, to) in [(2, 1), (127, 1), (127, 126), (65, 64)] {
            known(report, &subject, from << first, to << first, None);
        }
    }
}

/// States that are not reachable, as either end and as both: sets of labels that no run gives, bits of no label, and the empty state.
fn unreachable(report: &mut Report) {
    let without_empty = ROUND.replace("(next x () (D) (D x))\n", "(next x () () (D x))\n");
    for (text, strange) in
        [(ROUND, vec![3, 5, 15, 16, 17, 256 + 1, 1 << 16 | 1, 1 << 24 | 1, 1 << 31 | 1, u32::MAX]), (&without_empty, vec![0, 3, 16, u32::MAX])]
    {
        let subject = Subject::new(text.as_bytes());
        for state in strange {
            for ends in [(1, state), (state, 1), (state, state), (8, state), (state, 8)] {
                refused(report, &subject, ends, (WORK + 1, RUN + 1), (23, 0));
            }
        }
    }
    let nothing = Subject::new(b"(state A)\n(next x () () (A x))\n(ask ((A x)))\n");
    for ends in [(0, 0), (1, 1), (0, 1), (1, 0)] {
        refused(report, &nothing, ends, (WORK, RUN), (23, 0));
    }
}

/// The order of the refusals: the text's size, the buffers, the lines and the missing question, too many states, a state that is not reachable.
fn order(report: &mut Report) {
    let short = [(WORK - 1, RUN), (WORK, RUN - 1), (WORK - 1, RUN - 1), (0, 0)];
    let many = free(8, "");
    for ends in [(1, 1), (1, 3), (0, 1), (u32::MAX, 1), (1, u32::MAX)] {
        for (last, number, line) in [
            ("(ask ((L0 x)))\n", 15, 0),
            ("", 10, 17),
            ("(ask ((L0 x)))\n(ask ((L0 x)))\n", 10, 18),
            ("(ask ((L0 x)))", 2, 17),
            ("(ask ((L0 x) ))\n", 3, 17),
            ("(state L0)\n", 5, 17),
            ("(ask ((L8 x)))\n", 6, 17),
            ("(ask ((L0)))\n", 7, 17),
        ] {
            let subject = Subject::new(format!("{many}{last}").as_bytes());
            refused(report, &subject, ends, (WORK, RUN), (number, line));
            for sizes in short {
                refused(report, &subject, ends, sizes, (12, 0));
            }
        }
        for text in [vec![], vec![b'('; 16_385]] {
            refused(report, &Subject::new(&text), ends, (WORK - 1, RUN - 1), (1, 0));
        }
    }
    let subject = Subject::new(ROUND.as_bytes());
    for (ends, sizes) in [(1, 3), (1, 2), (2, 1)].into_iter().flat_map(|ends| short.map(|sizes| (ends, sizes))) {
        refused(report, &subject, ends, sizes, (12, 0));
    }
}

/// Runs all ways that are known by hand.
pub fn all(report: &mut Report) {
    by_hand(report);
    example(report);
    long(report);
    unreachable(report);
    order(report);
}
