//! Texts with their exact answers: document 01's table, its limits, and how open points are read.

use crate::calls::Answer;
use crate::report::Report;
use crate::subject::{fresh, Subject};

/// Five lines of declarations; a line after them is line 6.
const DECLARED: &str = "(state A)\n(state B)\n(rel R 1)\n(rel W 2)\n(rel N 0)\n";
const ASK: &str = "(ask ((A x)))\n";

/// A text that every call refuses with this number and line.
fn refused(report: &mut Report, number: u32, line: u32, text: &[u8]) {
    let subject = Subject::new(text);
    let wanted = Answer::Refused(number, line);
    let answers = [subject.analyze(report).answer, subject.replay(report, &[]), subject.place(report, &mut fresh(), 1_024)];
    report.check(answers == [wanted; 3], || format!("{number} @ {line} expected, {answers:?} given:\n{}", subject.show()));
}

/// A text that every call accepts.
fn accepted(report: &mut Report, text: &[u8]) {
    let subject = Subject::new(text);
    let verdict = subject.analyze(report).answer;
    let good = matches!(verdict, Answer::Reached(_) | Answer::Unreached);
    report.check(good, || format!("{verdict:?} to an accepted text:\n{}", subject.show()));
    let broken = [subject.replay(report, &[]), subject.place(report, &mut fresh(), 255)];
    report.check(broken == [Answer::Broken(0); 2], || format!("{broken:?} to an accepted text:\n{}", subject.show()));
}

/// A line after the declarations and before the question; number 0 if it is accepted.
fn line(report: &mut Report, number: u32, line: &str) {
    let text = format!("{DECLARED}{line}\n{ASK}");
    match number {
        0 => accepted(report, text.as_bytes()),
        _ => refused(report, number, 6, text.as_bytes()),
    }
}

/// A question after the declarations.
fn question(report: &mut Report, number: u32, ask: &str) {
    let text = format!("{DECLARED}{ask}\n");
    match number {
        0 => accepted(report, text.as_bytes()),
        _ => refused(report, number, 6, text.as_bytes()),
    }
}

/// The small examples of rows 1 to 11; rows 12 and 14 are tried with the buffers.
fn small_examples(report: &mut Report) {
    let states: String = ('A'..='Y').map(|n| format!("(state {n})\n")).collect();
    refused(report, 1, 0, b"");
    refused(report, 2, 1, b"(state A!)\n");
    refused(report, 3, 1, b"(state  A)\n");
    refused(report, 4, 25, states.as_bytes());
    refused(report, 5, 2, b"(state A)\n(state A)\n");
    refused(report, 6, 1, b"(new (A))\n");
    refused(report, 7, 3, b"(state A)\n(rel R 1)\n(rule (R x y) (A x) (A y))\n");
    refused(report, 8, 3, b"(state A)\n(rel R 1)\n(ask ((A x) (not (R x))))\n");
    refused(report, 9, 3, b"(state A)\n(rel R 1)\n(rule (R x) (A y))\n");
    refused(report, 10, 2, b"(state A)\n");
    refused(report, 11, 3, b"(state A)\n(rel W 2)\n(ask ((W x y) (A z)) ((W x y) (A z)))\n");
}

/// Rows 2, 3 and 10 by lines.
fn lines_and_bytes(report: &mut Report) {
    let cases: [(u32, u32, &[u8]); 22] = [
        (2, 2, b"(state A)\n(ask ((A x)))"),
        (2, 2, b"(state A)\n(state A)"),
        (2, 2, b"(state A)\n(stat"),
        (2, 1, b"x"),
        (2, 1, b" "),
        (3, 2, b"(state A)\n(state)\n(state B)\n(state C!)\n"),
        (3, 1, b"(state)\n(state A)"),
        (2, 1, b"(state A!)\n(state)\n"),
        (2, 3, b"(state A)\n(state B)\n(state A)!\n"),
        (10, 3, b"(state A)\n(ask ((A x)))\n\n"),
        (10, 3, b"(state A)\n(ask ((A x)))\n!\n"),
        (10, 3, b"(state A)\n(ask ((A x)))\nx"),
        (10, 3, b"(state A)\n(ask ((A x)))\n(ask ((A x)))\n"),
        (10, 3, b"(state A)\n(ask ((A x)))\n(state B)\n(state B!)"),
        (6, 1, b"(ask ((A x)))\n(state A)\n"),
        (3, 2, b"(state A)\n(ask)\n(state !)\n"),
        (3, 1, b"\n"),
        (3, 2, b"(state A)\n\n"),
        (3, 1, b"\n\n\n"),
        (10, 2, b"(state A)\n"),
        (10, 3, b"(state A)\n(new (A))\n"),
        (10, 6, DECLARED.as_bytes()),
    ];
    for (number, at, text) in cases {
        refused(report, number, at, text);
    }
    accepted(report, b"(state A)\n(ask ((A x)))\n");
}

/// Every byte inside a name.
fn every_byte(report: &mut Report) {
    for b in 0..=255u8 {
        let text = [b"(state A", &[b][..], b"B)\n"].concat();
        match b {
            b'0'..=b'9' | b'A'..=b'Z' | b'a'..=b'z' => refused(report, 10, 2, &text),
            b' ' | b'(' | b')' | b'\n' => refused(report, 3, 1, &text),
            _ => refused(report, 2, 1, &text),
        }
    }
}

/// The rows of a file of cases: a number, and a line in quotes.
fn rows(file: &'static str) -> impl Iterator<Item = (u32, &'static str)> {
    file.lines().filter(|row| row.ends_with('"')).map(|row| {
        let (number, text) = row.split_once(" \"").expect("a number before the quotes");
        (number.parse().expect("a number"), text.strip_suffix('"').expect("a quote at the end"))
    })
}

/// Lines and questions after the declarations.
fn lines_and_questions(report: &mut Report) {
    for (number, each) in rows(include_str!("../cases/lines.txt")) {
        line(report, number, each);
    }
    for (number, ask) in rows(include_str!("../cases/questions.txt")) {
        question(report, number, ask);
    }
}

/// Names and variables of 16 and 17 letters and digits, everywhere.
fn long_names(report: &mut Report) {
    let (fits, long) = ("Abcdefgh12345678", "Abcdefgh123456789");
    for (shape, number) in [("(state #)", 3), ("(rel # 2)", 3), ("(new () (A #))", 3), ("(next # () () (A #))", 3), ("(rule (R #) (A #))", 3)] {
        line(report, 0, &shape.replace('#', fits));
        line(report, number, &shape.replace('#', long));
    }
    line(report, 6, &format!("(new ({fits}))"));
    line(report, 3, &format!("(new ({long}))"));
    line(report, 3, &format!("(new () ({long} x))"));
    accepted(report, format!("(state {fits})\n(new ({fits}))\n(ask (({fits} {fits})))\n").as_bytes());
    question(report, 3, &format!("(ask ((A {long})))"));
}

/// An item written n times, with a space between.
fn times(item: &str, n: usize) -> String {
    vec![item; n].join(" ")
}

/// Lists of 24 and 25, bodies and stages of 8 and 9, 4 and 5 stages, 3 and 4 variables.
fn lengths(report: &mut Report) {
    for (n, number) in [(7, 0), (8, 0), (24, 0), (25, 3)] {
        let names = times("A", n);
        line(report, number, &format!("(new ({names}))"));
        line(report, number, &format!("(next x ({names}) () (A x))"));
        line(report, number, &format!("(next x () ({names}) (A x))"));
        line(report, if number == 0 { 6 } else { 3 }, &format!("(new ({}))", times("C", n)));
    }
    for (n, number) in [(8, 0), (9, 3)] {
        let body = times("(A x)", n);
        line(report, number, &format!("(rule (R x) {body})"));
        line(report, number, &format!("(new () {body})"));
        line(report, number, &format!("(next x () () {body})"));
        question(report, number, &format!("(ask ({body}))"));
        question(report, number, &format!("(ask ((A y)) ({body}))"));
    }
    for (n, number) in [(4, 0), (5, 3)] {
        question(report, number, &format!("(ask {})", times("((A x))", n)));
    }
    for (variables, number) in [("(W x y) (A z)", 0), ("(W x y) (W z v)", 9)] {
        line(report, number, &format!("(new () {variables})"));
        line(report, number, &format!("(rule (R x) {variables})"));
        line(report, number, &format!("(next x () () {variables})"));
        question(report, number, &format!("(ask ({variables}))"));
    }
    line(report, 7, &format!("(new () (A {}))", times("x", 5_000)));
    line(report, 7, &format!("(rule (R {}) (A x))", times("x", 5_000)));
    line(report, 3, &format!("(new () (A {} 1))", times("x", 5_000)));
}

/// So many declarations and clauses, then a question of no stage's worth of names.
fn declarations(states: usize, singles: usize, pairs: usize, clauses: usize) -> String {
    let mut text: String = (0..states).map(|i| format!("(state S{i})\n")).collect();
    text.extend((0..singles).map(|i| format!("(rel R{i} {})\n", i % 2)));
    text.extend((0..pairs).map(|i| format!("(rel P{i} 2)\n")));
    text.extend((0..clauses).map(|i| ["(new (S0))\n", "(next x () () (S0 x))\n", "(rule (R1 x) (S0 x))\n"][i % 3].to_string()));
    text + "(ask ((S0 x)))\n"
}

/// As many literals as there can be: 64 bodies and 4 stages of 8.
fn all_literals(report: &mut Report) {
    let bodies = format!("(next x () () {})\n", times("(A x)", 8)).repeat(63);
    let stage = format!("({})", times("(A x)", 8));
    let ask = format!("(ask {})", times(&stage, 4));
    accepted(report, format!("(state A)\n{bodies}(new (A) {})\n{ask}\n", times("(A y)", 8)).as_bytes());
    accepted(report, format!("(state A)\n(new (A))\n{bodies}{ask}\n").as_bytes());
    refused(report, 4, 66, format!("(state A)\n(new (A))\n(new (A))\n{bodies}{ask}\n").as_bytes());
}

/// Row 4: 24 and 25 states, 16 and 17 relations, 6 and 7 pairs, 64 and 65 clauses.
fn counts(report: &mut Report) {
    accepted(report, declarations(24, 10, 6, 64).as_bytes());
    accepted(report, declarations(24, 16, 0, 64).as_bytes());
    accepted(report, declarations(8, 10, 6, 64).as_bytes());
    refused(report, 4, 25, declarations(25, 2, 0, 0).as_bytes());
    refused(report, 4, 18, declarations(1, 17, 0, 3).as_bytes());
    refused(report, 4, 18, declarations(1, 11, 6, 3).as_bytes());
    refused(report, 4, 10, declarations(1, 2, 7, 3).as_bytes());
    refused(report, 4, 68, declarations(1, 2, 0, 65).as_bytes());
    let full = declarations(24, 10, 6, 64);
    let before = full.strip_suffix("(ask ((S0 x)))\n").unwrap();
    for line in ["(state S0)", "(state T)", "(rel S0 1)", "(rel P0 2)", "(rel T 0)", "(new (Z))", "(rule (Z x x))", "(next x (Z) () (not (P0 x)))"] {
        refused(report, 4, 105, format!("{before}{line}\n").as_bytes());
    }
    let singles = declarations(24, 10, 0, 64);
    let before = singles.strip_suffix("(ask ((S0 x)))\n").unwrap();
    refused(report, 5, 99, format!("{before}(rel R0 1)\n").as_bytes());
    refused(report, 6, 99, format!("{before}(ask ((Z x)))\n").as_bytes());
    refused(report, 3, 99, format!("{before}(new ({}))\n", times("S0", 25)).as_bytes());
    refused(report, 4, 99, format!("{before}(new ({}))\n", times("S0", 24)).as_bytes());
}

/// A `new` line of exactly so many bytes, 51 to 297, about a state relation whose name has 16 letters.
fn filler(name: &str, bytes: usize) -> String {
    let count = ((bytes - 51) / 36).min(6);
    let rest = bytes - 49 - 36 * count;
    let (list, letters) = if rest > 32 { (name, rest - 16) } else { ("", rest) };
    let first = (letters - 1).min(16);
    let literal = |letter: &str, n: usize| format!(" ({name} {})", letter.repeat(n));
    format!("(new ({list}){}{}{})\n", literal("w", 16).repeat(count), literal("p", first), literal("q", letters - first))
}

/// An accepted text of exactly so many bytes.
pub fn long_text(bytes: usize) -> Vec<u8> {
    let name = "Abcdefghijklmnop";
    let ask = format!("(ask (({name} x)))\n");
    let mut text = format!("(state {name})\n(new ({name}))\n");
    while bytes - text.len() - ask.len() > 297 {
        let rest = bytes - text.len() - ask.len();
        text += &filler(name, if rest < 400 { 150 } else { 280 });
    }
    text += &filler(name, bytes - text.len() - ask.len());
    (text + &ask).into_bytes()
}

/// Row 1: 16,384 and 16,385 bytes.
fn sizes(report: &mut Report) {
    for bytes in [16_383, 16_384, 16_385] {
        let text = long_text(bytes);
        report.check(text.len() == bytes, || format!("a text of {} bytes and not {bytes}", text.len()));
        match bytes {
            16_385 => refused(report, 1, 0, &text),
            _ => accepted(report, &text),
        }
    }
    refused(report, 2, 1, &[b'x'; 16_384]);
    refused(report, 1, 0, &[b'x'; 16_385]);
    refused(report, 3, 1, &[b'\n'; 16_384]);
    refused(report, 1, 0, &[b'\n'; 16_385]);
    refused(report, 1, 0, &vec![0; 100_000]);
    refused(report, 3, 1, &[&[b'('; 16_383][..], b"\n"].concat());
}

/// Every byte of a text dropped, doubled, or replaced by and preceded by each of some others.
fn one_byte_wrong(report: &mut Report) {
    let text = b"(state A)\n(rel R 1)\n(rel W 2)\n(new (A))\n(next x (A) () (A x) (not (A x)))\n(rule (W x y) (A x) (R y))\n(ask ((A x) (W x y)) ((R x)))\n";
    let mut answer = |t: &[u8]| {
        let subject = Subject::new(t);
        subject.replay(report, &[]);
    };
    for i in 0..text.len() {
        answer(&[&text[..i], &text[i + 1..]].concat());
        for b in b" ()\nAxRWyz012not!" {
            answer(&[&text[..i], &[*b], &text[i + 1..]].concat());
            answer(&[&text[..i], &[*b], &text[i..]].concat());
        }
        answer(&text[..i]);
    }
}

/// Runs all texts with exact answers.
pub fn all(report: &mut Report) {
    small_examples(report);
    lines_and_bytes(report);
    every_byte(report);
    lines_and_questions(report);
    long_names(report);
    lengths(report);
    all_literals(report);
    counts(report);
    sizes(report);
    one_byte_wrong(report);
}
