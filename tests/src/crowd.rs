//! Databases of 255 objects in 255 different states, with six pair relations over them.

use crate::calls::{Answer, OBJECTS};
use crate::lent::{lent, NONE};
use crate::meaning::Place;
use crate::report::Report;
use crate::seeded::place_by_place;
use crate::subject::Subject;
use crate::wide::declared;

/// The labels that tell the objects apart: eight of the 24.
const APART: [usize; 8] = [0, 3, 7, 8, 12, 16, 19, 23];
/// A label that all objects have, those of the first and of the last of a pair, and one that a guarded line sets.
const EVERY: usize = 20;
const FIRST: usize = 21;
const LAST: usize = 22;
const DONE: usize = 5;

/// Six pair relations, two of which have every pair, two a row or a column, and two one pair alone; they are there once an object has the label of the
/// last. The first clause is line 32: a line that creates, lines that set each label that tells apart, and three that set the others; then lines whose
/// guards need pairs of all relations.
fn text() -> String {
    let mut text = declared(24) + "(rel On 0)\n(rel P 2)\n(rel Q 2)\n(rel R 2)\n(rel S 2)\n(rel U 2)\n(rel V 2)\n";
    text += &format!("(new (L{EVERY}))\n");
    text.extend(APART.iter().chain(&[FIRST, LAST]).map(|i| format!("(next x (L{i}) () (L{EVERY} x) (not (L{i} x)))\n")));
    text += &format!("(next x (L{DONE}) () (Q x y) (R y x) (S x y) (P y x) (U x z) (V z y))\n");
    text += &format!("(next x (L{DONE}) () (Q y x) (S y x) (P x x) (U y z) (V z x))\n");
    text += &format!("(next x () (L{EVERY}) (P y z) (V x y) (U z x))\n");
    text += &format!("(rule (On) (L{LAST} x))\n(rule (P x y) (On) (L{EVERY} x) (L{EVERY} y))\n(rule (S x y) (On) (P x y) (Q x y))\n");
    text += &format!("(rule (Q x y) (L{FIRST} x) (L{LAST} y))\n(rule (R x y) (Q y x))\n");
    text += &format!("(rule (U x y) (On) (L{FIRST} x) (L{EVERY} y))\n(rule (V x y) (On) (L{EVERY} x) (L{LAST} y))\n");
    text + "(ask ((Q x y) (R y x) (S x y) (P z x)) ((P x y)))\n"
}

/// The lines of the text.
const NEW: u32 = 32;
const SET: u32 = 33;
const MARK: u32 = 41;
const GUARDED: u32 = 43;

/// The state that has the bits of a number in the labels that tell apart.
fn apart(number: usize) -> u32 {
    (0..8).filter(|i| number >> i & 1 == 1).map(|i| 1 << APART[i]).sum::<u32>()
}

/// Lent states in which one object alone is the first of a pair and one alone the last, wherever they stand: the guards hold for them and for no other.
fn corners(report: &mut Report) {
    let subject = Subject::new(text().as_bytes());
    for first in [0, 126, 127, 128, 253, 254] {
        for last in [0, 127, 128, 254] {
            let mut states: Vec<u32> = (0..255).map(|o| apart(o) | 1 << EVERY).collect();
            states[first] |= 1 << FIRST;
            states[last] |= 1 << LAST;
            let other = (0..255).rev().find(|o| *o != first && *o != last).expect("a third object");
            let mut put = |place: Place, kept: bool| {
                let given = subject.place(report, &mut lent(&states, 0, NONE, 3), place.encode());
                let wanted = if kept { Answer::Kept } else { Answer::Broken(3) };
                report.check(given == wanted, || format!("{given:?} to {place:?} with {first} and {last}"));
            };
            put(Place::Step(GUARDED, first), true);
            put(Place::Step(GUARDED + 1, last), true);
            put(Place::meeting(1, &[first, last, other]), true);
            put(Place::Step(GUARDED, other), false);
            put(Place::Step(GUARDED + 1, other), false);
            put(Place::meeting(1, &[other, last, first]), false);
        }
    }
}

/// The database of such a text is made place by place, one object of each of 255 states, and its last objects are those of the pair; with as many
/// objects there is no room for another, though a line that creates would be allowed.
fn made(report: &mut Report) {
    let subject = Subject::new(text().as_bytes());
    let refused = subject.analyze(report).answer;
    report.check(refused == Answer::Refused(15, 0), || format!("{refused:?} to 255 states"));
    let mut run = Vec::new();
    for o in 0..OBJECTS {
        run.push(Place::Step(NEW, o));
        run.extend((0..8).filter(|i| o >> i & 1 == 1).map(|i| Place::Step(SET + i as u32, o)));
    }
    run.extend([Place::Step(MARK, 253), Place::Step(MARK + 1, 254), Place::Step(GUARDED, 253), Place::Step(GUARDED + 1, 254)]);
    let numbers = |end: &[Place]| run.iter().chain(end).map(Place::encode).collect::<Vec<u32>>();
    let met = [Place::meeting(1, &[253, 254, 0]), Place::Step(GUARDED + 2, 253), Place::meeting(2, &[254, 253])];
    let tried: [(&[Place], Option<usize>); 5] = [
        (&met[..2], Some(2)),
        (&[met[0], Place::meeting(2, &[253, 254])], None),
        (&met, Some(2)),
        (&[Place::Step(NEW, 254)], Some(0)),
        (&[met[0], Place::Step(GUARDED, 252)], Some(1)),
    ];
    for (end, broken) in tried {
        let given = subject.replay(report, &numbers(end));
        let wanted = broken.map_or(Answer::Kept, |i| Answer::Broken(run.len() + i));
        report.check(given == wanted, || format!("{given:?}, not {wanted:?} at {end:?}"));
    }
    let whole = numbers(tried[1].0);
    let broken = place_by_place(report, &subject, &whole);
    report.check(broken.is_none(), || format!("255 states place by place: broken at {broken:?}"));
}

/// Runs all databases.
pub fn all(report: &mut Report) {
    corners(report);
    made(report);
}
