//! Texts and runs with something wrong in them.

use crate::random::Random;

/// The text with one byte changed, dropped, doubled or put in.
fn byte(r: &mut Random, text: &mut Vec<u8>) {
    let i = r.below(text.len());
    match r.below(4) {
        0 => text[i] = r.pick(b" ()\nxyAR019!\t\r\x00\xc3not"),
        1 => drop(text.remove(i)),
        2 => text.insert(i, text[i]),
        _ => text.insert(i, r.pick(b" ()\nxyzAB012")),
    }
}

/// The text with a line swapped with another, doubled or dropped.
fn line(r: &mut Random, text: &mut Vec<u8>) {
    let mut lines: Vec<Vec<u8>> = text.split_inclusive(|b| *b == 10).map(|l| l.to_vec()).collect();
    let (a, b) = (r.below(lines.len()), r.below(lines.len()));
    match r.below(3) {
        0 => lines.swap(a, b),
        1 => lines.insert(b, lines[a].clone()),
        _ => drop(lines.remove(a)),
    }
    *text = lines.concat();
}

/// Where a word stands in a text.
fn places_of(text: &str, word: &str) -> Vec<usize> {
    text.match_indices(word).map(|m| m.0).collect()
}

/// The text with one word put for another.
fn word(r: &mut Random, text: &mut Vec<u8>) {
    const WORDS: [(&str, &str); 21] = [
        (" x", " y"),
        (" y", " z"),
        (" z", " v"),
        (" x", ""),
        (" x", " x x"),
        (" (", " (not ("),
        ("(not (", "("),
        ("0)", "1)"),
        ("1)", "2)"),
        ("2)", "0)"),
        ("state", "rel"),
        ("next x", "new"),
        ("a0", "w"),
        ("b1", "a0"),
        ("a1", "a0"),
        ("))", ") (A x))"),
        (" w", " a0"),
        (" w", " v"),
        (" v", " w"),
        ("a0", "v"),
        ("A", "R"),
    ];
    let (from, to) = r.pick(&WORDS);
    let s = String::from_utf8_lossy(text).into_owned();
    let at = places_of(&s, from);
    if at.is_empty() {
        return;
    }
    let k = r.pick(&at);
    *text = format!("{}{to}{}", &s[..k], &s[k + from.len()..]).into_bytes();
}

/// `not` comes to a whole literal of the text.
fn negated(r: &mut Random, text: &mut Vec<u8>) {
    let s = String::from_utf8_lossy(text).into_owned();
    let at: Vec<usize> = places_of(&s, " (").into_iter().filter(|k| !s[*k..].starts_with(" (not")).collect();
    if at.is_empty() {
        return;
    }
    let k = r.pick(&at) + 1;
    let Some(end) = s[k..].find(')') else { return };
    *text = format!("{}(not {}){}", &s[..k], &s[k..=k + end], &s[k + end + 1..]).into_bytes();
}

/// A text with one or two things wrong.
pub fn text(r: &mut Random, whole: &str) -> Vec<u8> {
    let mut t = whole.as_bytes().to_vec();
    for _ in 0..1 + r.below(2) {
        match r.below(8) {
            _ if t.is_empty() => {}
            0..=1 => byte(r, &mut t),
            2..=3 => line(r, &mut t),
            4 => negated(r, &mut t),
            _ => word(r, &mut t),
        }
    }
    t
}

/// A place that differs a little from another.
fn place(r: &mut Random, n: u32) -> u32 {
    match r.below(6) {
        0 => n.wrapping_add(1),
        1 => n.wrapping_sub(1),
        2 => n ^ 1 << r.below(32),
        3 => n ^ 255 << (8 * r.below(3)),
        4 => (n & 0xFFFF_FF00) | r.below(4) as u32,
        _ => n.wrapping_add(256),
    }
}

/// The run damaged in one place: changed, dropped, doubled, swapped with the next, cut off or put in.
pub fn run(r: &mut Random, whole: &[u32]) -> Vec<u32> {
    let mut run = whole.to_vec();
    let i = r.below(run.len());
    match r.below(8) {
        0..=2 => run[i] = place(r, run[i]),
        3 => drop(run.remove(i)),
        4 => run.insert(i, run[i]),
        5 => run.truncate(i),
        6 => {
            let other = place(r, run[i]);
            run.insert(i + 1, other)
        }
        _ => {
            let next = (i + 1) % run.len();
            run.swap(i, next)
        }
    }
    run
}
