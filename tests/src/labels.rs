//! Twenty-four labels, checked by hand: document 02, R-6.

use crate::calls::{Answer, OBJECTS, RUN, WORK};
use crate::handins::marked;
use crate::models::{answer, meet, step, verdict};
use crate::reader::LABELS;
use crate::report::Report;
use crate::subject::{fresh, Subject};
use crate::wide::{declared, free};

/// All labels, as a list has them.
fn each() -> String {
    (0..LABELS).map(|i| format!("L{i}")).collect::<Vec<String>>().join(" ")
}

/// A text that the analysis refuses 15, with line 0.
fn too_many(report: &mut Report, text: &str) {
    let given = Subject::new(text.as_bytes()).analyze(report).answer;
    report.check(given == Answer::Refused(15, 0), || format!("{given:?}, not 15:\n{text}"));
}

/// Each label by itself, one after the other, and all of them together: states up to 2^24 - 1, listed by rising number.
fn every_label(report: &mut Report) {
    let bits: Vec<u32> = (0..LABELS).map(|i| 1 << i).collect();
    let up: String = (1..LABELS).map(|i| format!("(next x (L{i}) (L{}) (L{} x))\n", i - 1, i - 1)).collect();
    let moving = format!("{}(new (L0))\n{up}", declared(LABELS));
    verdict(report, &format!("{moving}(ask ((L0 x)) ((L23 x)))\n"), true, &bits);
    verdict(report, &format!("{moving}(ask ((L23 x)) ((L0 x)))\n"), false, &bits);
    verdict(report, &format!("{moving}(ask ((L23 x) (L22 x)))\n"), false, &bits);
    let down: String = (1..LABELS).map(|i| format!("(next x (L{}) (L{i}) (L{i} x))\n", i - 1)).collect();
    verdict(report, &format!("{}(new (L23))\n{down}(ask ((L23 x)) ((L7 x)) ((L0 x)))\n", declared(LABELS)), true, &bits);
    let more: String = (1..LABELS).map(|i| format!("(next x (L{i}) () (L{} x))\n", i - 1)).collect();
    let prefixes: Vec<u32> = (1..=LABELS).map(|i| (1 << i) - 1).collect();
    verdict(report, &format!("{}(new (L0))\n{more}(ask ((L0 x) (L7 x) (L8 x) (L15 x) (L16 x) (L23 x)))\n", declared(LABELS)), true, &prefixes);
    let whole = format!("{}(new ({}))\n(next x () ({}) (L23 x))\n(ask ((L23 x)))\n", declared(LABELS), each(), each());
    verdict(report, &whole, true, &[0, (1 << 24) - 1]);
    let both = format!("{}(new (L7))\n(next x ({}) ({}) (L7 x))\n(ask ((L0 x)))\n", declared(LABELS), each(), each());
    verdict(report, &both, false, &[0, 128]);
}

/// Document 02's order: state relations count from the first `state` line, whatever stands between; label 8 and label 24 are not lost.
fn high_labels(report: &mut Report) {
    let mut text: String = (0..LABELS).map(|i| format!("(state L{i})\n{}", if i < 16 { format!("(rel R{i} {})\n", i % 2) } else { String::new() })).collect();
    text += "(new (L7))\n(new (L23))\n(next x (L8) () (L7 x) (L23 y))\n(next x () (L23) (L23 x) (L8 y))\n(next x (L22) () (L23 x) (not (L7 x)) (L8 y) (not (L23 y)))\n";
    let states = [0, 128, 384, 1 << 22, 1 << 23, 3 << 22];
    verdict(report, &format!("{text}(ask ((L8 x) (L7 x)) ((L22 x)))\n"), false, &states);
    verdict(report, &format!("{text}(ask ((L7 x) (not (L8 x))) ((L8 x)) ((L22 y) (L23 y)) ((L22 y) (not (L23 y))))\n"), true, &states);
}

/// Seven kinds of 64, 32, 16, 8, 4, 2 and 1 states: 127, none of them empty. The labels are in use up to the last.
fn full() -> String {
    let mut text = declared(LABELS);
    for (kind, free) in (0..7).map(|kind| (LABELS - 1 - kind, 6 - kind)) {
        text += &format!("(new (L{kind}))\n");
        text.extend((0..free).map(|i| format!("(next x (L{}) () (L{kind} x))\n", 2 * i)));
    }
    text
}

/// The states of such a text, in order.
fn full_states() -> Vec<u32> {
    let spread = |n: u32| (0..6).map(|i| (n >> i & 1) << (2 * i)).sum::<u32>();
    (0..7).rev().flat_map(|kind| (0..1 << (6 - kind)).map(move |n| 1 << (LABELS as u32 - 1 - kind) | spread(n))).collect()
}

/// 127 non-empty states have their verdict, also with the empty one; 128 are refused, whichever line brings the last one, however late, and whatever is
/// asked.
fn limit(report: &mut Report) {
    let (text, states) = (full(), full_states());
    let with_empty: Vec<u32> = [&[0], &states[..]].concat();
    let asks = [("(ask ((L23 x) (L10 x) (L0 x)))\n", true), ("(ask ((L23 x) (L22 x)))\n", false), ("(ask ((L23 x)) ((L22 y)))\n", true)];
    for (ask, reached) in asks {
        verdict(report, &format!("{text}{ask}"), reached, &states);
        verdict(report, &format!("{text}(new ())\n{ask}"), reached, &with_empty);
        verdict(report, &format!("{text}(next x () (L17) (L17 x))\n{ask}"), reached, &with_empty);
        verdict(report, &format!("{text}(new (L16) (L16 x))\n{ask}"), reached, &states);
        verdict(report, &format!("{text}(next x (L16) () (L17 x) (L16 y))\n{ask}"), reached, &states);
        too_many(report, &format!("{text}(new (L16))\n{ask}"));
        too_many(report, &format!("{text}(new ())\n(new (L16))\n{ask}"));
        too_many(report, &format!("{text}(next x (L16) () (L17 x))\n{ask}"));
        too_many(report, &format!("{text}(next x (L16) () (L17 x))\n(next x () (L17) (L17 x))\n{ask}"));
        too_many(report, &format!("{}{ask}", text.replacen("(new (L23))", "(new (L16))\n(new (L23))", 1)));
    }
    let late = "(rel N 0)\n(rel W 2)\n(rule (W x y) (L23 x) (L10 x) (L0 x) (L2 x) (L4 x) (L6 x) (L8 x) (L17 y))\n(rule (N) (W x y))\n";
    for (ask, reached) in asks {
        verdict(report, &format!("{text}{late}(new (L16) (W x x))\n{ask}"), reached, &states);
        too_many(report, &format!("{text}{late}(new (L16) (W x y))\n{ask}"));
        too_many(report, &format!("{text}{late}(new (L16) (N))\n{ask}"));
        too_many(report, &format!("{text}{late}(next y (L16) () (W x y))\n{ask}"));
    }
}

/// The literals on x that say of some labels whether the number has their bits.
pub fn is(labels: std::ops::Range<usize>, number: u32) -> String {
    labels.map(|i| if number >> i & 1 == 1 { format!(" (L{i} x)") } else { format!(" (not (L{i} x))") }).collect()
}

/// A counter over eight labels, beside a ninth that is always there: states come one at a time, from 1 to a last one.
fn counter(last: u32) -> String {
    let mut text = declared(9) + "(rel Go 1)\n(rel Six 1)\n(rel Low 1)\n(new (L0 L8))\n";
    text.extend((0..8).map(|i| format!("(rule (Go x) (L8 x){})\n", is(i..i + 1, !last))));
    text += &format!("(rule (Six x){})\n(rule (Low x) (L8 x){})\n", is(1..7, 255), is(0..4, last));
    for i in 0..8 {
        let below: Vec<String> = (0..i).map(|k| format!("L{k}")).collect();
        let ones = if i < 7 { is(0..i, 255) } else { " (L0 x) (Six x)".into() };
        text += &format!("(next x (L{i}) ({}) (Go x){ones} (not (L{i} x)))\n", below.join(" "));
    }
    text + &format!("(ask ((Low x){}))\n", is(4..8, last))
}

/// 126 and 127 states of a counter have their verdict, more are refused.
fn counted(report: &mut Report) {
    for last in [126, 127, 128, 129, 255] {
        let states: Vec<u32> = (1..=last).map(|n| n | 256).collect();
        match last {
            0..=127 => drop(verdict(report, &counter(last), true, &states)),
            _ => too_many(report, &counter(last)),
        }
    }
}

/// 15 comes after every row: of the buffers, of the lines, and after the missing `ask`.
fn order(report: &mut Report) {
    let text = free(LABELS, "");
    let ask = "(ask ((L0 x)))\n";
    let whole = Subject::new(format!("{text}{ask}").as_bytes());
    for (work, places, row) in [(WORK - 1, RUN, 12), (WORK, RUN - 1, 12), (WORK, RUN, 15), (WORK + 1, RUN + 1, 15)] {
        let given = whole.analyze_with(report, work, places).answer;
        report.check(given == Answer::Refused(row, 0), || format!("{given:?}, not {row} with {work} bytes and {places} places"));
    }
    for (more, row, line) in [
        ("", 10, 49),
        ("(ask ((L0 x)))\n(ask ((L0 x)))\n", 10, 50),
        ("(ask ((L0 x)))", 2, 49),
        ("(ask ((L0 x) ))\n", 3, 49),
        ("(state L24)\n", 4, 49),
        ("(state L0)\n", 4, 49),
        ("(rel L0 1)\n", 5, 49),
        ("(ask ((L24 x)))\n", 6, 49),
        ("(ask ((L0 x y)))\n", 7, 49),
        ("(ask ((L0 x) (not (L1 y))))\n", 9, 49),
        ("(ask ((L0 x) (L1 y) (L2 z)) ((L0 x) (L1 y) (L2 z)))\n", 11, 49),
    ] {
        let given = Subject::new(format!("{text}{more}").as_bytes()).analyze(report).answer;
        report.check(given == Answer::Refused(row, line), || format!("{given:?}, not {row} @ {line} after {more}"));
    }
}

/// Texts with 128 and with 2^23 states are refused by the analysis alone: a run is replayed, whole and place by place, and a hand-in that shows one is
/// right; whatever needs the verdict is refused.
fn replayed(report: &mut Report) {
    for labels in [8, LABELS] {
        too_many(report, &free(labels, "(ask ((L0 x)))\n"));
        let last = labels - 1;
        let text = free(labels, &format!("(ask ((L0 x) (not (L1 x))) ((L1 x) (L{last} x) (L0 y) (not (L{last} y))))\n"));
        too_many(report, &text);
        let [new, one, high] = [labels + 1, labels + 2, 2 * labels].map(|l| l as u32);
        let kept = [step(new, 0), step(new, 1), step(high, 1), meet(1, &[1]), step(one, 1), meet(2, &[1, 0])];
        answer(report, &text, &kept, Answer::Kept);
        answer(report, &text, &kept[..5], Answer::Broken(5));
        answer(report, &text, &[&kept[..5], &[meet(2, &[0, 1])]].concat(), Answer::Broken(5));
        answer(report, &text, &[&kept[..5], &[meet(2, &[1, 1])]].concat(), Answer::Broken(5));
        answer(report, &text, &[step(high, 0)], Answer::Broken(0));
        let subject = Subject::new(text.as_bytes());
        let places = format!("(step {new} 0)\n(step {new} 1)\n(step {high} 1)\n(meet 1 1)\n(step {one} 1)\n");
        for handin in
            ["no\n".to_string(), "yes\n".into(), format!("yes\n{places}"), format!("yes\n{places}(meet 2 1 0)\n"), format!("yes\n{places}(meet 2 0 1)\n")]
        {
            marked(report, &subject, true, handin.as_bytes());
        }
    }
}

/// An object with all 24 labels, in a replay and in a lent state; bit 23 is read, set and cleared.
fn highest_bit(report: &mut Report) {
    let text = free(LABELS, "(ask ((L23 x) (L22 x) (L7 x) (L8 x)))\n");
    let set: Vec<_> = (1..LABELS as u32).map(|i| step(LABELS as u32 + 1 + i, 0)).collect();
    let run = [&[step(LABELS as u32 + 1, 0)], &set[..], &[meet(1, &[0])]].concat();
    answer(report, &text, &run, Answer::Kept);
    answer(report, &text, &[&run[..LABELS - 1], &run[LABELS..]].concat(), Answer::Broken(LABELS - 1));
    let text = format!("{}(new (L23))\n(next x (L0) (L23) (L23 x))\n(next x (L23) () (not (L23 x)) (L0 x))\n(ask ((L23 x) (L0 x)))\n", declared(LABELS));
    let subject = Subject::new(text.as_bytes());
    for (before, line, after) in
        [(1 << 23, 26, Some(1)), (1, 27, Some(1 << 23 | 1)), (3 << 22, 26, Some(1 << 22 | 1)), (1 << 23, 27, None), (1 << 22, 26, None)]
    {
        let mut lent = fresh();
        (lent[0], lent[OBJECTS]) = (before, 1);
        let given = subject.place(report, &mut lent, step(line, 0).encode());
        let right = if after.is_some() { given == Answer::Kept } else { given == Answer::Broken(0) };
        report.check(right && lent[0] == after.unwrap_or(before), || format!("{given:?}: line {line} makes {} of {before}", lent[0]));
    }
}

/// Runs all cases.
pub fn all(report: &mut Report) {
    every_label(report);
    high_labels(report);
    limit(report);
    counted(report);
    order(report);
    replayed(report);
    highest_bit(report);
}
