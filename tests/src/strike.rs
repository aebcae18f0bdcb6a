//! Which lines to strike, and how much of the policy matters (document 02, R-8 and R-10): every choice of lines is decided by plain means.

use crate::calls::{self, Cure, Tally, WORK};
use crate::meaning::{Action, Model};
use crate::random::Random;
use crate::report::Report;
use crate::search::{led_about, reachable};
use crate::subject::Subject;
use crate::wide::declared;

/// The most lines that a list may have.
const LINES: usize = 10;
/// The most tries to lead the carried objects about, for one choice.
const TRIES: usize = 1_500;

/// Whether the question is reached where these lines are struck; none if that is not known.
fn reached(m: &Model, struck: &[u32]) -> Option<bool> {
    let mut left = m.clone();
    left.clauses.retain(|c| !struck.contains(&c.line));
    let states = reachable(&left)?;
    led_about(&left, &states, TRIES / (states.len() + 1))
}

/// The lines of a list that a number chooses, rising.
fn chosen(lines: &[u32], number: usize) -> Vec<u32> {
    let mut all: Vec<u32> = (0..lines.len()).filter(|i| number >> i & 1 == 1).map(|i| lines[i]).collect();
    all.sort_unstable();
    all
}

/// Each choice of lines to strike with its verdict; none if one of them is not known.
fn decided(m: &Model, lines: &[u32]) -> Option<Vec<(Vec<u32>, bool)>> {
    (0..1 << lines.len())
        .map(|number| {
            let struck = chosen(lines, number);
            reached(m, &struck).map(|r| (struck, r))
        })
        .collect()
}

/// The fewest lines whose removal makes the verdict unreached; among equally many those whose rising numbers come first.
fn cheapest(all: &[(Vec<u32>, bool)]) -> Cure {
    let cures = all.iter().filter(|(_, reached)| !reached).map(|(struck, _)| struck);
    cures.min_by(|a, b| (a.len(), a).cmp(&(b.len(), b))).map_or(Cure::Nothing, |lines| Cure::Strike(lines.clone()))
}

/// How many choices are reached and unreached, and the reached share in whole hundredths with its remainder.
fn counted(all: &[(Vec<u32>, bool)]) -> Tally {
    let reached = all.iter().filter(|(_, r)| *r).count() as u32;
    let ways = all.len() as u32;
    Tally::Count { reached, unreached: ways - reached, share: 100 * reached / ways, remainder: 100 * reached % ways }
}

/// Whether a list is refused 19: empty, too long, a line twice, or one that is neither `new` nor `next`.
fn bad(m: &Model, lines: &[u32]) -> bool {
    let strikable = |l: &u32| m.clauses.iter().any(|c| c.line == *l && !matches!(c.action, Action::Rule(..)));
    let twice = (0..lines.len()).any(|i| lines[..i].contains(&lines[i]));
    lines.is_empty() || lines.len() > LINES || twice || !lines.iter().all(strikable)
}

/// Puts a list to both calls, and compares refusals, answers and the work area with the plain ones.
pub fn put(report: &mut Report, subject: &Subject, lines: &[u32], work: usize) {
    let (cure, cure_area) = calls::cure(&subject.text, lines, work);
    let (tally, tally_area) = calls::tally(&subject.text, lines, work);
    let about = || format!("{cure:?}, {tally:?} for {lines:?} with {work} bytes in\n{}", subject.show());
    report.check(cure_area && tally_area, || format!("work area: {}", about()));
    let own = || subject.read.as_ref().ok().and_then(|m| if bad(m, lines) { Some((19, 0)) } else { subject.states().is_none().then_some((15, 0)) });
    if let Some((number, line)) = subject.refusal(&[(12, work < WORK)]).or_else(own) {
        report.check(cure == Cure::Refused(number, line) && tally == Tally::Refused(number, line), || format!("{number} @ {line} expected: {}", about()));
        return report.cover(&format!("strike: refused {number:2}"));
    }
    let m = subject.read.as_ref().expect("a text that is not refused has a model");
    let Some(all) = decided(m, lines) else { return report.cover("strike: not decided by plain means") };
    report.check(cure == cheapest(&all), || format!("cure {:?}: {}", cheapest(&all), about()));
    report.check(tally == counted(&all), || format!("tally {:?}: {}", counted(&all), about()));
    report.cover(match &cure {
        Cure::Strike(lines) if lines.is_empty() => "strike: unreached already",
        Cure::Strike(lines) if lines.len() == 1 => "strike: one line is enough",
        Cure::Strike(_) => "strike: several lines",
        Cure::Nothing => "strike: no choice does",
        _ => "strike: no answer",
    });
}

/// Some `new` and `next` lines of a model, in any order.
fn some_lines(r: &mut Random, m: &Model, most: usize) -> Vec<u32> {
    let mut all: Vec<u32> = m.clauses.iter().filter(|c| !matches!(c.action, Action::Rule(..))).map(|c| c.line).collect();
    let mut lines = Vec::new();
    while lines.len() < most && !all.is_empty() {
        lines.push(all.swap_remove(r.below(all.len())));
    }
    lines
}

/// Puts some lists to a seeded model, right ones and damaged ones.
pub fn lists(report: &mut Report, r: &mut Random, subject: &Subject, m: &Model) {
    let most = r.pick(&[1, 2, 3, 4, 5]);
    let lines = some_lines(r, m, most);
    put(report, subject, &lines, WORK + 9);
    let mut damaged = some_lines(r, m, 12);
    match r.below(4) {
        0 => damaged.push(r.word()),
        1 => damaged.extend(lines.first().copied()),
        2 => damaged.clear(),
        _ => damaged.extend([0; 11]),
    }
    if bad(m, &damaged) {
        put(report, subject, &damaged, r.pick(&[WORK, WORK, WORK - 1]));
    }
}

/// The `new` lines of `five`.
const TEN: std::ops::Range<u32> = 16..26;

/// A text that is reached exactly if five of its ten `new` lines are kept. Each creates a state that has a label more than the one before, and the states
/// that are there are counted along this order.
fn five() -> String {
    let labels = |n: usize| (0..n).map(|i| format!("L{i}")).collect::<Vec<String>>().join(" ");
    let mut text = declared(LINES) + "(rel C2 1)\n(rel C3 1)\n(rel C4 1)\n(rel C5 1)\n(rel Less 2)\n";
    text.extend((1..=LINES).map(|n| format!("(new ({}))\n", labels(n))));
    text.extend((1..LINES).map(|i| format!("(rule (Less x y) (L0 x) (not (L{i} x)) (L{i} y))\n")));
    text += "(rule (C2 y) (L0 x) (Less x y))\n";
    text.extend((2..5).map(|k| format!("(rule (C{} y) (C{k} x) (Less x y))\n", k + 1)));
    text + "(ask ((C5 x)))\n"
}

/// Of ten lines any six are to be struck, and of the 1,024 choices those that strike up to five are reached.
fn six_of_ten(report: &mut Report) {
    let subject = Subject::new(five().as_bytes());
    let rising: Vec<u32> = TEN.collect();
    let falling: Vec<u32> = TEN.rev().collect();
    for lines in [rising, falling] {
        put(report, &subject, &lines, WORK);
        let given = (calls::cure(&subject.text, &lines, WORK).0, calls::tally(&subject.text, &lines, WORK).0);
        let wanted = (Cure::Strike(vec![16, 17, 18, 19, 20, 21]), Tally::Count { reached: 638, unreached: 386, share: 62, remainder: 312 });
        report.check(given == wanted, || format!("{given:?} for {lines:?}, not {wanted:?}"));
    }
}

/// Two lines that cure only together, lists of exactly ten lines and of eleven, and six lines of ten.
pub fn all(report: &mut Report) {
    six_of_ten(report);
    let mut text = String::from("(state A)\n(state B)\n");
    for _ in 0..11 {
        text += "(new (A))\n";
    }
    text += "(next x (B) () (A x))\n(ask ((B x)))\n";
    let subject = Subject::new(text.as_bytes());
    for n in 1..=11 {
        let lines: Vec<u32> = (3..3 + n).collect();
        put(report, &subject, &lines, WORK);
    }
    for lines in [vec![14], vec![14, 3], vec![13, 14, 3], vec![3, 3], vec![1], vec![15], vec![16], vec![0], vec![u32::MAX], vec![]] {
        put(report, &subject, &lines, WORK);
    }
    for text in [vec![], vec![b'('; 16_385]] {
        put(report, &Subject::new(&text), &[], WORK - 1);
    }
    let two = Subject::new(b"(state A)\n(new (A))\n(new (A))\n(next x () (A) (A x))\n(ask ((A x)))\n");
    for lines in [vec![2, 3], vec![3, 2], vec![4], vec![2], vec![4, 3, 2]] {
        put(report, &two, &lines, WORK);
    }
}
