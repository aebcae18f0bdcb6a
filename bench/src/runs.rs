//! Runs made to be slow: at nearly every place the last object of one state leaves it for a state that no object has, and every such step rests on all rules.

use crate::texts::{declared, every, full_relations, full_rules, halves, hand_round_rules, no_triangle, PAIRS, STATES};
use std::fmt::Write;

/// A text with a run of it.
pub struct Run {
    pub name: &'static str,
    pub bytes: String,
    pub places: Vec<u32>,
}

/// The most places of a run.
const PLACES: usize = 9_344;
/// The atomic state with all relations.
const ALL: u32 = 127;

/// Where the lines of a text stand: the one that creates an object of all relations, and those that set and clear each relation.
struct Lines {
    create: u32,
    set: [u32; 7],
    clear: [u32; 7],
}

/// The number that the next line of a text has.
pub fn next_line(t: &str) -> u32 {
    t.lines().count() as u32 + 1
}

/// The lines that create an object of all relations, and set and clear each relation where the guard holds.
fn toggles(t: &mut String, guard: &str) -> Lines {
    let mut lines = Lines {
        create: next_line(t),
        set: [0; 7],
        clear: [0; 7],
    };
    writeln!(t, "(new (A B C D E F G))").unwrap();
    for (i, s) in STATES.iter().enumerate() {
        lines.set[i] = next_line(t);
        writeln!(t, "(next x ({s}) () (not ({s} x)){guard})").unwrap();
        lines.clear[i] = next_line(t);
        writeln!(t, "(next x () ({s}) ({s} x){guard})").unwrap();
    }
    lines
}

/// Steps that make one object of each state but for the hole; the object of each state.
fn make(places: &mut Vec<u32>, lines: &Lines, hole: u32) -> [u32; 128] {
    let mut owner = [0; 128];
    let mut object = 0;
    for state in (1..=ALL).filter(|&s| s != hole) {
        places.push(lines.create * 256 + object);
        for i in (0..7).filter(|i| state >> i & 1 == 0) {
            places.push(lines.clear[i] * 256 + object);
        }
        owner[state as usize] = object;
        object += 1;
    }
    owner
}

/// Steps by each of which an object fills the hole and leaves one; `choose` says which relation it sets or clears.
fn fill(places: &mut Vec<u32>, lines: &Lines, mut hole: u32, mut owner: [u32; 128], mut choose: impl FnMut(u32) -> usize) {
    while places.len() + 1 < PLACES {
        let i = choose(hole);
        let from = hole ^ 1 << i;
        let line = if hole >> i & 1 == 1 { lines.set[i] } else { lines.clear[i] };
        let object = owner[from as usize];
        places.push(line * 256 + object);
        owner[hole as usize] = object;
        hole = from;
    }
}

/// A relation by which the hole moves to another state with labels, by a fixed sequence without a short period.
fn wander() -> impl FnMut(u32) -> usize {
    let mut seed = 1u32;
    move |hole| loop {
        seed = seed.wrapping_mul(1_664_525).wrapping_add(1_013_904_223);
        let i = (seed >> 20) as usize % 7;
        if hole != 1 << i {
            return i;
        }
    }
}

/// The meeting that ends the run, by an object.
fn meet(places: &mut Vec<u32>, object: u32) {
    places.push(0x8100_ffff | object << 16);
}

/// The hole wanders over a text with these rules.
fn wandering(name: &'static str, rules: impl Fn(&mut String)) -> Run {
    let mut t = declared(&["O"], &PAIRS);
    t.push_str("(rel N 0)\n");
    let lines = toggles(&mut t, " (O x) (N)");
    rules(&mut t);
    t.push_str("(rule (N) (O x))\n(rule (N) (U x y))\n(ask ((O x)))\n");
    let mut places = Vec::new();
    let hole = 64;
    let owner = make(&mut places, &lines, hole);
    fill(&mut places, &lines, hole, owner, wander());
    meet(&mut places, 0);
    Run { name, bytes: t, places }
}

/// One fact is handed round over the states up to 125, and the last object goes from state 126 to 127 and back.
fn handed_round() -> Run {
    let mut t = declared(&["First", "Low", "Row", "Next", "O"], &PAIRS);
    t.push_str("(rel N 0)\n");
    let mut lines = Lines {
        create: next_line(&t),
        set: [0; 7],
        clear: [0; 7],
    };
    writeln!(t, "(new (A B C D E F G))").unwrap();
    for (i, s) in STATES.iter().enumerate() {
        lines.clear[i] = next_line(&t);
        let guard = if i == 0 { " (N)" } else { "" };
        writeln!(t, "(next x () ({s}) ({s} x){guard})").unwrap();
    }
    lines.set[0] = next_line(&t);
    writeln!(t, "(next x (A) () (B x) (not (A x)) (N))").unwrap();
    hand_round_rules(&mut t, 125);
    t.push_str("(rule (N) (B x))\n(rule (N) (U x y))\n(ask ((B x)))\n");
    let mut places = Vec::new();
    let owner = make(&mut places, &lines, 127);
    fill(&mut places, &lines, 127, owner, |_| 0);
    meet(&mut places, owner[2]);
    Run {
        name: "changing states, one fact handed round",
        bytes: t,
        places,
    }
}

/// The labels of 24 that tell 255 objects apart, of which the first is the one that the half-full relations look at; and those that come and go.
const APART: [&str; 8] = ["A", "N1", "N2", "N3", "N4", "N5", "N6", "N7"];
const CHANGING: [&str; 6] = ["C0", "C1", "C2", "C3", "C4", "C5"];

/// A text of 24 labels with these rules. Objects have the label K and are told apart by eight others; six come and go where all rules were taken.
/// The lines that set and clear the six follow those that create an object and set each of the eight.
fn crowd_text(rules: impl Fn(&mut String)) -> (String, u32) {
    let mut t = String::new();
    let unused = (0..9).map(|i| format!("X{i}"));
    for label in ["K"].iter().chain(&APART).chain(&CHANGING).map(|l| l.to_string()).chain(unused) {
        writeln!(t, "(state {label})").unwrap();
    }
    t.push_str("(rel O 1)\n(rel N 0)\n");
    for p in PAIRS {
        writeln!(t, "(rel {p} 2)").unwrap();
    }
    let first = next_line(&t);
    t.push_str("(new (K))\n");
    for l in APART {
        writeln!(t, "(next x ({l}) () (K x))").unwrap();
    }
    for l in CHANGING {
        writeln!(t, "(next x ({l}) () (not ({l} x)) (O x) (N))\n(next x () ({l}) ({l} x) (O x) (N))").unwrap();
    }
    t.push_str("(rule (O x) (K x))\n");
    rules(&mut t);
    t.push_str("(rule (N) (O x))\n(rule (N) (U x y))\n(ask ((O x)))\n");
    (t, first)
}

/// 255 objects in 255 states, then at each place an object goes on to a state that no object ever had: the six labels of each object count through
/// their sets, one label at a time, and the objects take turns. No set of states comes twice.
fn crowd(name: &'static str, places: usize, rules: impl Fn(&mut String)) -> Run {
    let (bytes, first) = crowd_text(rules);
    let mut run = Vec::new();
    for object in 0..255 {
        run.push(first * 256 + object);
        run.extend((0..8).filter(|i| object >> i & 1 == 1).map(|i| (first + 1 + i) * 256 + object));
    }
    let changes = (1..64u32).flat_map(|turn| (0..255).map(move |object| (turn, object)));
    for (turn, object) in changes.take(places - 1 - run.len()) {
        let label = turn.trailing_zeros();
        let cleared = turn >> (label + 1) & 1;
        run.push((first + 9 + 2 * label + cleared) * 256 + object);
    }
    assert_eq!(run.len(), places - 1, "{name}");
    meet(&mut run, 254);
    Run { name, bytes, places: run }
}

/// Rules of eight literals that never hold over half-full relations.
fn never(t: &mut String) {
    halves(t, &["Q", "R", "S"], &["P", "T"]);
    for i in 0..30 {
        writeln!(t, "(rule (U x y){})", no_triangle(i)).unwrap();
    }
}

/// All runs.
pub fn all() -> Vec<Run> {
    vec![
        wandering("changing states, six full relations", |t| full_relations(t, 34)),
        wandering("changing states, never all three", |t| {
            every(t, "O");
            never(t);
        }),
        handed_round(),
        crowd("255 states, six full relations, 1,292 places", 1_292, |t| full_rules(t, 34)),
        crowd("255 changing states, six full relations", PLACES, |t| full_rules(t, 34)),
        crowd("255 changing states, never all three", PLACES, never),
    ]
}
