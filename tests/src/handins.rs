//! Hand-ins, right, wrong and damaged: what they say, what they are worth, and why their runs break.

use crate::calls::{self, Answer, RUN, WORK};
use crate::damage;
use crate::guess;
use crate::guided;
use crate::meaning::{play, Action, Model, Place, Session};
use crate::random::{model, Random, Shape};
use crate::reader::{self, Form, Kind, Literal, Outcome};
use crate::report::Report;
use crate::search::{search, FOLLOWED};
use crate::subject::Subject;
use crate::wide;

/// The most bytes of a hand-in.
const LONGEST: usize = 524_288;
/// How many models are tried.
const MODELS: u64 = 300;
/// How many models of many labels are drawn, of which those with few states and those with too many are tried.
const WIDE_MODELS: u64 = 80;

/// What a hand-in says, by the plain reader.
#[derive(Clone, Debug, PartialEq)]
enum Said {
    Unreadable(usize),
    No,
    Yes(usize, Vec<u32>),
}

/// A numeral in base ten without leading zeros, below a bound.
fn numeral(word: &str, below: u64) -> Option<u64> {
    let plain = !word.is_empty() && word.bytes().all(|b| b.is_ascii_digit()) && (word == "0" || !word.starts_with('0'));
    let number = if word.len() > 18 { u64::MAX } else { word.parse().unwrap_or(u64::MAX) };
    (plain && number < below).then_some(number)
}

/// A line of a preface says nothing; a line of a place has its number.
enum Line {
    Nothing,
    Place(u32),
    Bad,
}

fn line(bytes: &[u8]) -> Line {
    let Ok(text) = std::str::from_utf8(bytes) else { return Line::Bad };
    let Some(inner) = text.strip_prefix('(').and_then(|t| t.strip_suffix(')')) else { return Line::Bad };
    let words: Vec<&str> = inner.split(' ').collect();
    match words.as_slice() {
        ["states", n] if numeral(n, u64::MAX).is_some() || n.len() > 18 && n.bytes().all(|b| b.is_ascii_digit()) && !n.starts_with('0') => Line::Nothing,
        ["atomic", names @ ..] if names.iter().all(|w| !w.is_empty() && w.bytes().all(|b| b.is_ascii_alphanumeric())) => Line::Nothing,
        ["step", l, o] => match (numeral(l, 1 << 23), numeral(o, 255)) {
            (Some(l), Some(o)) => Line::Place(Place::Step(l as u32, o as usize).encode()),
            _ => Line::Bad,
        },
        ["meet", stage, objects @ ..] if objects.len() <= 3 => {
            let named: Option<Vec<usize>> = objects.iter().map(|o| numeral(o, 255).map(|o| o as usize)).collect();
            match (numeral(stage, 128), named) {
                (Some(stage), Some(named)) => Line::Place(Place::meeting(stage as usize, &named).encode()),
                _ => Line::Bad,
            }
        }
        _ => Line::Bad,
    }
}

fn read(bytes: &[u8]) -> Said {
    if bytes.len() > LONGEST {
        return Said::Unreadable(0);
    }
    let mut lines: Vec<&[u8]> = bytes.split(|b| *b == b'\n').collect();
    if lines.last().is_some_and(|l| l.is_empty()) {
        lines.pop();
    }
    let yes = match lines.first().copied() {
        Some(b"yes") | Some(b"(verdict reached)") => true,
        Some(b"no") | Some(b"(verdict unreached)") => false,
        _ => return Said::Unreadable(1),
    };
    let mut first = 1;
    let mut run: Vec<u32> = Vec::new();
    for (i, l) in lines.iter().enumerate().skip(1) {
        match line(l) {
            Line::Nothing if run.is_empty() => first = i + 1,
            Line::Place(n) if yes && run.len() < RUN => run.push(n),
            _ => return Said::Unreadable(i + 1),
        }
    }
    if yes {
        Said::Yes(first + 1, run)
    } else {
        Said::No
    }
}

/// A place as a listing writes it, where it has such a form.
fn written(n: u32) -> String {
    match Place::decode(n) {
        Some(Place::Step(line, object)) => format!("(step {line} {object})"),
        Some(Place::Meeting(stage, os)) => {
            let named: String = os.iter().take_while(|o| **o != 255).map(|o| format!(" {o}")).collect();
            format!("(meet {stage}{named})")
        }
        None => format!("(step {} 255)", n >> 8),
    }
}

/// Compares what the call says of a hand-in with the plain reader.
fn said(report: &mut Report, bytes: &[u8]) -> Said {
    let plain = read(bytes);
    let h = calls::handin(bytes, RUN + 3);
    let (code, places) = match &plain {
        Said::Unreadable(line) => (5 << 32 | *line as u64, &[][..]),
        Said::No => (9 << 32, &[][..]),
        Said::Yes(first, run) => (10 << 32 | (run.len() as u64) << 16 | *first as u64, &run[..]),
    };
    let about = || format!("hand-in is {}, not {plain:?}: {}", h.code, String::from_utf8_lossy(&bytes[..bytes.len().min(400)]));
    report.check(h.code == code, about);
    report.check(h.has(places), || format!("run table: {}", about()));
    report.cover(match plain {
        Said::Unreadable(_) => "hand-in: unreadable",
        Said::No => "hand-in: no",
        Said::Yes(..) => "hand-in: yes",
    });
    plain
}

/// Marks a hand-in, and compares the mark and the buffers with the plain ones; `reached` is the verdict of an accepted text. Where there are too many
/// states for one, a run that is kept is right, and whatever needs the verdict is refused.
pub fn marked(report: &mut Report, subject: &Subject, reached: bool, bytes: &[u8]) {
    let plain = said(report, bytes);
    let mark = calls::mark(&subject.text, bytes, WORK + 7, RUN + 3, RUN + 5);
    let too_many = 2 << 32 | 15 << 16;
    let judged = subject.states().is_some();
    let (code, places, notes, wiped, covered) = match (&subject.read, &plain) {
        (Err((number, line)), _) => (2 << 32 | (*number as u64) << 16 | *line as u64, vec![], vec![], false, "refused"),
        (Ok(_), Said::Unreadable(line)) => (5 << 32 | *line as u64, vec![], vec![], false, "unreadable"),
        (Ok(_), Said::No) if !judged => (too_many, vec![], vec![], true, "a no that is refused 15"),
        (Ok(_), Said::No) if !reached => (6 << 32, vec![], vec![], true, "a right no"),
        (Ok(_), Said::No) => (7 << 32 | 1, vec![], vec![], true, "a wrong no"),
        (Ok(m), Said::Yes(first, run)) => {
            let played = play(m, run);
            let notes = played.notes.clone();
            match played.broken_at(m, run) {
                None => (6 << 32, run.clone(), notes, true, "a right yes"),
                Some(_) if !judged => (too_many, run.clone(), notes, true, "a run that breaks and is refused 15"),
                Some(_) if !reached => (7 << 32, run.clone(), notes, true, "a wrong yes"),
                Some(k) => (8 << 32 | (k as u64) << 16 | (first + k) as u64, run.clone(), notes, true, "a run that breaks"),
            }
        }
    };
    let about = || format!("mark {} and not {code} of {plain:?} in\n{}", mark.code, subject.show());
    report.check(mark.code == code, about);
    report.check(mark.has(&places, &notes), || format!("tables: {}", about()));
    report.check(if wiped { mark.wiped } else { mark.untouched }, || format!("work area: {}", about()));
    report.cover(&format!("mark: {covered}{}", if judged || covered != "a right yes" { "" } else { " where the verdict is refused 15" }));
    if let (Ok(m), Said::Yes(_, run)) = (&subject.read, &plain) {
        reasons(report, subject, m, run);
    }
}

/// Which of the carried variables a meeting has another object for.
fn others(m: &Model, session: &Session, place: Place) -> &'static str {
    let Place::Meeting(_, os) = place else { return "none" };
    let seats = m.stages[session.met].carried;
    let other = |c: usize| seats[c].is_some_and(|x| session.carried[c].is_some_and(|o| o != os[x]));
    match (other(0), other(1)) {
        (true, true) => "both of a pair",
        (true, false) => "the first",
        (false, true) => "the second of a pair",
        (false, false) => "none",
    }
}

/// Compares the reason for which a run breaks with the plain one.
fn reasons(report: &mut Report, subject: &Subject, m: &Model, run: &[u32]) {
    let played = play(m, run);
    let code = match played.broken_at(m, run) {
        None => 3 << 32,
        Some(k) if k == run.len() => 4 << 32 | (k as u64) << 16,
        Some(k) => {
            let place = Place::decode(run[k]).expect("a place of a hand-in has a form");
            let (kind, literal) = played.sessions[k].why(m, place).expect("the place is not allowed");
            report.cover(&format!("reason: {kind}"));
            if kind == 7 {
                report.cover(&format!("reason: 7 for {}", others(m, &played.sessions[k], place)));
            }
            4 << 32 | (k as u64) << 16 | u64::from(kind) << 8 | literal as u64
        }
    };
    let (given, left) = calls::why(&subject.text, run, WORK + 7, RUN + 3);
    let about = || format!("reason {given:#x} and not {code:#x} for {run:?} in\n{}", subject.show());
    report.check(given == code, about);
    report.check(left.area && left.has(&played.notes), || format!("buffers: {}", about()));
}

/// A hand-in damaged in a byte or a line.
fn damaged(r: &mut Random, whole: &str) -> Vec<u8> {
    let mut bytes = whole.as_bytes().to_vec();
    match r.below(6) {
        _ if bytes.is_empty() => {}
        0 => drop(bytes.pop()),
        1 => drop(bytes.remove(r.below(bytes.len()))),
        2 => bytes.insert(r.below(bytes.len()), b" 0()\nx9"[r.below(7)]),
        3 => {
            let i = r.below(bytes.len());
            bytes[i] = r.below(256) as u8;
        }
        _ => {
            let mut lines: Vec<&str> = whole.lines().collect();
            let (i, j) = (r.below(lines.len()), r.below(lines.len()));
            if r.chance(50) {
                lines.swap(i, j);
            } else {
                lines.insert(i, lines[j]);
            }
            bytes = (lines.join("\n") + "\n").into_bytes();
        }
    }
    bytes
}

/// A listing of a verdict, with a preface or without.
fn listing(r: &mut Random, states: usize, run: Option<&[u32]>) -> String {
    let mut text = match (run.is_some(), r.chance(50)) {
        (true, true) => "yes\n".to_string(),
        (true, false) => "(verdict reached)\n".to_string(),
        (false, true) => "no\n".to_string(),
        (false, false) => "(verdict unreached)\n".to_string(),
    };
    if r.chance(40) {
        text += &format!("(states {states})\n(atomic)\n(atomic A B2)\n");
    }
    for n in run.unwrap_or(&[]) {
        text += &written(*n);
        text.push('\n');
    }
    text
}

/// Compares names, literals, variables and effects with the plain reader's.
fn shown(report: &mut Report, subject: &Subject) {
    let Outcome::Accepted(text) = reader::read(&subject.text) else { return };
    let about = || subject.show();
    let mut counts = [0u32; 4];
    for (i, (name, kind)) in text.declared.iter().enumerate() {
        let class = match kind {
            Kind::State => 0,
            Kind::Derived(n) => n + 1,
        };
        let code = 32 * class as u32 + counts[class];
        counts[class] += 1;
        let (from, length, given) = calls::relation(&subject.text, i);
        report.check(subject.text[from..from + length] == *name.as_bytes() && given == code, || format!("relation {i}: {}", about()));
    }
    report.check(calls::relation(&subject.text, text.declared.len()) == (0, 0, 0), || format!("one relation too many: {}", about()));
    for l in subject.text.split(|b| *b == b'\n') {
        line_shown(report, l);
    }
    if let Ok(m) = &subject.read {
        for c in &m.clauses {
            let (kind, after): (u64, fn(&Action, u32) -> u32) = match c.action {
                Action::Rule(..) => (0, |_, _| 0),
                Action::New(_) => (2, |a, _| if let Action::New(s) = a { *s } else { 0 }),
                Action::Next(..) => (3, |a, s| if let Action::Next(plus, minus) = a { (s | plus) & !minus } else { 0 }),
            };
            for state in [0, 1, 5, 127, 1 << 23, (1 << 24) - 1] {
                let given = calls::effect(&subject.text, c.line, state);
                report.check(given == kind << 32 | u64::from(after(&c.action, state)), || format!("line {} of state {state} is {given}: {}", c.line, about()));
            }
        }
    }
}

/// A literal as a text writes it.
fn literal(l: &Literal) -> String {
    let atom = format!("({}{})", l.name, l.variables.iter().map(|v| format!(" {v}")).collect::<String>());
    if l.negated {
        format!("(not {atom})")
    } else {
        atom
    }
}

/// The parts of a line by the plain reader: for each stage number its head's variables and its literals.
fn parts(l: &[u8]) -> Vec<(usize, Vec<String>, Vec<Literal>)> {
    match reader::form(l) {
        Some(Form::Rule(head, body)) => vec![(0, head.variables, body)],
        Some(Form::New(_, body)) => vec![(0, Vec::new(), body)],
        Some(Form::Next(x, _, _, body)) => vec![(0, vec![x], body)],
        Some(Form::Ask(stages)) => stages.into_iter().enumerate().map(|(i, s)| (i + 1, Vec::new(), s)).collect(),
        _ => Vec::new(),
    }
}

/// Compares the literals and the variables of a line, which may have no form, with the plain reader's.
fn line_shown(report: &mut Report, l: &[u8]) {
    let about = |what: &str| format!("{what} of {}", String::from_utf8_lossy(l));
    let parts = parts(l);
    for stage in 0..6 {
        let (head, literals): (Vec<String>, Vec<Literal>) =
            parts.iter().find(|p| p.0 == stage).map_or((Vec::new(), Vec::new()), |p| (p.1.clone(), p.2.clone()));
        let mut variables: Vec<&String> = Vec::new();
        for v in head.iter().chain(literals.iter().flat_map(|l| &l.variables)) {
            if !variables.contains(&v) {
                variables.push(v);
            }
        }
        for k in 0..=literals.len() {
            let (from, to) = calls::literal(l, stage, k);
            let wanted = literals.get(k).map_or(String::new(), literal);
            report.check(from <= to && to <= l.len() && l[from..to] == *wanted.as_bytes(), || about(&format!("literal {k} of stage {stage}")));
        }
        for j in 0..=variables.len() {
            let (from, to) = calls::variable(l, stage, j);
            let wanted = variables.get(j).map_or("", |v| v.as_str());
            report.check(from <= to && to <= l.len() && l[from..to] == *wanted.as_bytes(), || about(&format!("variable {j} of stage {stage}")));
        }
    }
}

/// The run with another object of the same state in its last meeting, for each that there is.
fn exchanged(m: &Model, run: &[u32]) -> Vec<Vec<u32>> {
    let sessions = play(m, run).sessions;
    let Some(Place::Meeting(stage, os)) = run.last().and_then(|n| Place::decode(*n)) else { return Vec::new() };
    let db = &sessions[run.len() - 1].db;
    let mut all = Vec::new();
    for i in (0..3).filter(|i| os[*i] != 255) {
        for other in (0..db.len()).filter(|o| *o != os[i] && db[*o] == db[os[i]]) {
            let mut objects = os;
            objects[i] = other;
            let mut changed = run.to_vec();
            *changed.last_mut().unwrap() = Place::Meeting(stage, objects).encode();
            all.push(changed);
        }
    }
    all
}

/// A random model of few labels.
fn few_labels(r: &mut Random) -> String {
    let shape = Shape { states: r.pick(&[1, 2, 3, 3]), relations: 3, clauses: 4 + r.below(10), stages: r.pick(&[1, 2, 3, 4]) };
    if r.chance(60) {
        guided::model(r, shape)
    } else {
        model(r, shape)
    }
}

/// One seeded model and its hand-ins.
fn seeded(report: &mut Report, r: &mut Random, text: &str) {
    let subject = Subject::new(text.as_bytes());
    let a = subject.analyze(report);
    let reached = matches!(a.answer, Answer::Reached(_));
    shown(report, &subject);
    let run = (!a.run.is_empty()).then_some(&a.run[..]);
    let right = listing(r, a.states.len(), run);
    marked(report, &subject, reached, right.as_bytes());
    marked(report, &subject, reached, b"no\n");
    if let (Ok(m), None) = (&subject.read, subject.states()) {
        let kept = search(m, 2, 500).run.unwrap_or_default();
        for run in [&kept[..], &kept[..kept.len().saturating_sub(1)], &[0]] {
            marked(report, &subject, reached, listing(r, 3, Some(run)).as_bytes());
        }
    }
    for _ in 0..4 {
        marked(report, &subject, reached, &damaged(r, &right));
        let guessed = subject.read.as_ref().map_or(Vec::new(), |m| guess::run(r, m));
        marked(report, &subject, reached, listing(r, 3, Some(&guessed)).as_bytes());
        if let Some(run) = run {
            let broken = damage::run(r, run);
            marked(report, &subject, reached, listing(r, 3, Some(&broken)).as_bytes());
        }
    }
    if let (Ok(m), Some(run)) = (&subject.read, run) {
        for changed in exchanged(m, run).iter().take(3) {
            marked(report, &subject, reached, listing(r, 3, Some(changed)).as_bytes());
        }
    }
    let bad = Subject::new(&damage::text(r, text));
    if bad.read.is_err() {
        marked(report, &bad, false, right.as_bytes());
        report.check(calls::relation(&bad.text, 0) == (0, 0, 0), || format!("a relation of a refused text: {}", bad.show()));
    }
    for l in bad.text.split(|b| *b == b'\n') {
        line_shown(report, l);
    }
}

/// A listing as long as they come: 128 states of 24 names of 16 letters, and 9,142 places.
fn longest_listing() -> String {
    let state = format!("(atomic{})\n", " Sixteen16letters".repeat(24));
    format!("(verdict reached)\n(states 128)\n{}{}", state.repeat(128), "(step 105 254)\n".repeat(9_142))
}

/// Hand-ins at the limits, and buffers that are too short.
fn limits(report: &mut Report) {
    let places = |n: usize| "yes\n".to_string() + &"(step 4 0)\n".repeat(n);
    for (bytes, wanted) in [
        (places(RUN), Said::Yes(2, vec![4 * 256; RUN])),
        (places(RUN + 1), Said::Unreadable(RUN + 2)),
        ("yes\n".to_string() + &"(atomic)\n".repeat(58_253), Said::Yes(58_255, vec![])),
        ("no\n".to_string() + &"(atomic aa)\n".repeat(43_690) + "(a", Said::Unreadable(43_692)),
        ("no\n".to_string() + &"(atomic a)\n".repeat(47_661) + "(atomic aaaa)\n", Said::No),
        ("no\n".to_string() + &"(atomic a)\n".repeat(47_661) + "(atomic aaaaa)\n", Said::Unreadable(0)),
        (longest_listing(), Said::Yes(131, vec![105 * 256 + 254; 9_142])),
        (String::new(), Said::Unreadable(1)),
    ] {
        let plain = said(report, bytes.as_bytes());
        report.check(plain == wanted, || format!("the plain reader says {plain:?}"));
    }
    let office = b"(state A)\n(new (A))\n(ask ((A x)))\n";
    for (work, run, stood) in [(WORK - 1, RUN, RUN), (WORK, RUN - 1, RUN), (WORK, RUN, RUN - 1)] {
        let mark = calls::mark(office, b"yes\n(step 2 0)\n(meet 1 0)\n", work, run, stood);
        report.check(mark.code == 2 << 32 | 12 << 16 && mark.untouched && mark.has(&[], &[]), || format!("mark with {work}, {run}, {stood}: {}", mark.code));
    }
    let h = calls::handin(b"no\n", RUN - 1);
    report.check(h.code == 2 << 32 | 12 << 16 && h.has(&[]), || format!("a hand-in with a short table: {}", h.code));
    for (work, run, stood, row) in [(WORK - 1, 0, RUN, 12), (WORK, 0, RUN - 1, 12), (WORK, RUN + 1, RUN, 14)] {
        let (code, left) = calls::why(office, &vec![512; run], work, stood);
        report.check(code == 2 << 32 | row << 16 && left.area && left.has(&[]), || format!("reasons with {work}, {run}, {stood}: {code:#x}"));
    }
}

pub fn all(report: &mut Report) {
    limits(report);
    for seed in 1..=MODELS {
        let mut r = Random::new(seed + 5_000);
        let text = few_labels(&mut r);
        seeded(report, &mut r, &text);
    }
    for seed in 1..=WIDE_MODELS {
        let mut r = Random::new(seed + 8_000_000);
        let (text, states) = wide::model(&mut r);
        if states <= wide::SMALL || states > FOLLOWED {
            seeded(report, &mut r, &text);
        }
    }
    for what in ["hand-in: unreadable", "hand-in: no", "hand-in: yes"] {
        report.met_often(what, 200);
    }
    for what in ["refused", "unreadable", "a right no", "a wrong no", "a right yes", "a wrong yes", "a run that breaks"] {
        report.met_often(&format!("mark: {what}"), 50);
    }
    for what in ["a no that is refused 15", "a run that breaks and is refused 15", "a right yes where the verdict is refused 15"] {
        report.met_often(&format!("mark: {what}"), 20);
    }
    for kind in 1..=8 {
        report.met_often(&format!("reason: {kind}"), 10);
    }
    for who in ["the first", "the second of a pair"] {
        report.met_often(&format!("reason: 7 for {who}"), 10);
    }
}
