//! Lent replay states: those that do not fit, those with carried objects, and those that no run gives.

use crate::calls::{Answer, Lent, CARRIED_OBJECTS, KEPT, MET, OBJECTS, WORK};
use crate::guess;
use crate::meaning::{Model, Place};
use crate::random::{model, Random, Shape};
use crate::report::Report;
use crate::subject::Subject;
use crate::wide;

/// Two state relations, three stages of which the first and the third carry x.
const TEXT: &str = "(state A)\n(state B)\n(new (A))\n(next x (B) () (A x))\n(next x () (A B) (B x))\n(ask ((A x)) ((B y)) ((B z) (A x)))\n";
/// The same lines, and three stages that carry x and y: x in the first and the third, y in the second and, before x, in the third.
const PAIR: &str = "(state A)\n(state B)\n(new (A))\n(next x (B) () (A x))\n(next x () (A B) (B x))\n(ask ((A x)) ((B y)) ((B y) (A z) (A x)))\n";

/// No carried object.
pub const NONE: [u32; 2] = [255, 255];

/// A state with these objects, and numbers in its unused cells that no object may have.
pub fn lent(states: &[u32], met: u32, carried: [u32; 2], kept: u32) -> Lent {
    let mut l: Lent = [0xFFFF_0000; 260];
    l[..states.len()].copy_from_slice(states);
    l[OBJECTS] = states.len() as u32;
    l[MET] = met;
    for (cell, object) in CARRIED_OBJECTS.into_iter().zip(carried) {
        l[cell] = object;
    }
    l[KEPT] = kept;
    l
}

/// The carried objects of a state.
fn carried_objects(l: &Lent) -> [u32; 2] {
    CARRIED_OBJECTS.map(|cell| l[cell])
}

/// Puts a place to a state of the first text, and holds the answer to the wanted one.
fn put(report: &mut Report, before: Lent, place: Place, wanted: Answer) -> Lent {
    put_to(report, TEXT, before, place, wanted)
}

/// Puts a place to a state of a text, and holds the answer to the wanted one.
fn put_to(report: &mut Report, text: &str, before: Lent, place: Place, wanted: Answer) -> Lent {
    let subject = Subject::new(text.as_bytes());
    let mut after = before;
    let given = subject.place(report, &mut after, place.encode());
    report.check(given == wanted, || format!("{given:?}, not {wanted:?} to {place:?} in {before:?}"));
    report.check(given == Answer::Kept || after == before, || format!("{place:?} changed {before:?}"));
    after
}

/// Each reason for which a state does not fit, alone: broken at 0, and left.
fn misfits(report: &mut Report) {
    let new = Place::Step(3, 2);
    let misfit = |report: &mut Report, change: &dyn Fn(&mut Lent)| {
        let mut l = lent(&[1, 2], 0, NONE, 7);
        change(&mut l);
        put(report, l, new, Answer::Broken(0));
    };
    put(report, lent(&[1, 2], 0, NONE, 7), new, Answer::Kept);
    for objects in [256, 257, 1_000, 65_536, u32::MAX] {
        misfit(report, &|l| {
            l[..OBJECTS].fill(1);
            l[OBJECTS] = objects;
        });
    }
    for state in [4, 5, 8, 64, 128, 256, 1 << 22, 1 << 23, 1 << 24, 1 << 31, u32::MAX] {
        misfit(report, &|l| l[0] = state);
        misfit(report, &|l| l[1] = state);
    }
    for met in [4, 5, 255, u32::MAX] {
        misfit(report, &|l| l[MET] = met);
    }
    for object in [2, 3, 254, 256, 257, 65_536, u32::MAX] {
        for cell in CARRIED_OBJECTS {
            misfit(report, &|l| l[cell] = object);
        }
        for carried in [[object, 255], [255, object], [object, 0], [0, object]] {
            put_to(report, PAIR, lent(&[1, 2], 1, carried, 7), new, Answer::Broken(0));
        }
    }
    for kept in [9_345, 9_346, 1_000_000, u32::MAX] {
        misfit(report, &|l| l[KEPT] = kept);
    }
}

/// A state relation is a bit below the number of the declared ones; every higher bit is undeclared, in the first object's state and in the last's.
fn undeclared(report: &mut Report) {
    for labels in [1, 2, 7, 8, 9, 16, 17, 23, 24] {
        let text = format!("{}(new (L0))\n(ask ((L0 x)))\n", wide::declared(labels));
        let new = Place::Step(labels as u32 + 1, 3);
        for bit in 0..32 {
            let wanted = if bit < labels { Answer::Kept } else { Answer::Broken(0) };
            for at in [0, 2] {
                let mut states = [1; 3];
                states[at] |= 1 << bit;
                put_to(report, &text, lent(&states, 0, NONE, 7), new, wanted);
            }
        }
    }
}

/// States that fit at the edge: an unused cell with anything, all stages met, the highest objects carried.
fn edges(report: &mut Report) {
    put(report, lent(&[1, 2], 3, [0, 255], 7), Place::Step(3, 2), Answer::Broken(7));
    put(report, lent(&[1, 2], 3, NONE, 0), Place::meeting(4, &[0]), Answer::Broken(0));
    put(report, lent(&[3], 2, [0, 255], 0), Place::Step(3, 1), Answer::Kept);
    put(report, lent(&[0, 3], 0, [0, 255], 9_342), Place::Step(4, 1), Answer::Kept);
    put(report, lent(&[0, 3], 0, [0, 255], 9_342), Place::Step(4, 0), Answer::Broken(9_342));
    let full = [3; 255];
    put(report, lent(&full, 0, [254, 255], 0), Place::Step(4, 254), Answer::Kept);
    put(report, lent(&full, 0, [254, 255], 5), Place::Step(3, 254), Answer::Broken(5));
    put(report, lent(&full, 0, NONE, 5), Place::Step(3, 255), Answer::Broken(5));
    put(report, lent(&full, 0, [254, 255], 5), Place::meeting(1, &[254]), Answer::Kept);
    put(report, lent(&full[..254], 0, [253, 255], 5), Place::Step(3, 254), Answer::Kept);
    put_to(report, PAIR, lent(&full, 2, [253, 254], 5), Place::meeting(3, &[254, 0, 253]), Answer::Kept);
    put_to(report, PAIR, lent(&full, 2, [254, 254], 5), Place::meeting(3, &[254, 254, 254]), Answer::Kept);
    put_to(report, PAIR, lent(&full[..254], 2, [254, 253], 5), Place::meeting(3, &[253, 0, 0]), Answer::Broken(0));
    put_to(report, PAIR, lent(&full[..254], 2, [253, 254], 5), Place::meeting(3, &[0, 0, 253]), Answer::Broken(0));
    put(report, lent(&[], 0, NONE, 0), Place::Step(3, 0), Answer::Kept);
    put(report, lent(&[], 2, NONE, 0), Place::Step(3, 0), Answer::Kept);
}

/// 9,343, 9,344 and 9,345 places kept; refusal 14 comes after rows 1 and 12 and before the lines, the misfit after them.
fn places_kept(report: &mut Report) {
    let new = Place::Step(3, 1);
    let after = put(report, lent(&[1], 0, NONE, 9_343), new, Answer::Kept);
    report.check(after[KEPT] == 9_344, || format!("{} places kept", after[KEPT]));
    put(report, after, Place::Step(3, 2), Answer::Refused(14, 0));
    put(report, lent(&[1, 99], 9, [77, 255], 9_344), new, Answer::Refused(14, 0));
    put(report, lent(&[1], 0, NONE, 9_345), new, Answer::Broken(0));
    let tries: [(&[u8], usize, u32, Answer); 8] = [
        (b"", WORK, 9_344, Answer::Refused(1, 0)),
        (b"", 0, 9_345, Answer::Refused(1, 0)),
        (b"(state A)\n", WORK - 1, 9_344, Answer::Refused(12, 0)),
        (b"(state A)\n", WORK, 9_344, Answer::Refused(14, 0)),
        (b"(state A!)\n", WORK, 9_344, Answer::Refused(14, 0)),
        (b"(state A)\n", WORK, 9_345, Answer::Refused(10, 2)),
        (b"(state A)\n", WORK - 1, 9_345, Answer::Refused(12, 0)),
        (TEXT.as_bytes(), WORK, 9_345, Answer::Broken(0)),
    ];
    for (text, work, kept, wanted) in tries {
        let given = Subject::new(text).place_with(report, &mut lent(&[1], 0, NONE, kept), new.encode(), work);
        report.check(given == wanted, || format!("{given:?}, not {wanted:?} with {kept} kept and {work} bytes"));
    }
}

/// A carried object is the one that a meeting must name; where there is none the next meeting with the carried variable sets it.
fn carried(report: &mut Report) {
    let states = [1, 3, 3];
    put(report, lent(&states, 0, [1, 255], 4), Place::meeting(1, &[0]), Answer::Broken(4));
    put(report, lent(&states, 0, [1, 255], 4), Place::meeting(1, &[1]), Answer::Kept);
    let set = put(report, lent(&states, 0, NONE, 4), Place::meeting(1, &[2]), Answer::Kept);
    report.check(carried_objects(&set) == [2, 255] && set[MET] == 1, || format!("{set:?}"));
    let kept = put(report, set, Place::meeting(2, &[1]), Answer::Kept);
    report.check(carried_objects(&kept) == [2, 255] && kept[MET] == 2, || format!("{kept:?}"));
    put(report, kept, Place::meeting(3, &[1, 1]), Answer::Broken(6));
    put(report, kept, Place::meeting(3, &[1, 2]), Answer::Kept);
    put(report, kept, Place::meeting(3, &[2, 1]), Answer::Broken(6));
    let late = put(report, lent(&states, 2, NONE, 0), Place::meeting(3, &[1, 0]), Answer::Kept);
    report.check(carried_objects(&late) == [0, 255], || format!("{late:?}"));
}

/// The first and the second carried object, each chosen at the first stage that has its variable; the two may be one.
fn carried_pairs(report: &mut Report) {
    let states = [1, 3, 3];
    let mut to = |before: Lent, place: Place, wanted: Answer| put_to(report, PAIR, before, place, wanted);
    let one = to(lent(&states, 0, NONE, 4), Place::meeting(1, &[2]), Answer::Kept);
    let two = to(one, Place::meeting(2, &[1]), Answer::Kept);
    let both = to(one, Place::meeting(2, &[2]), Answer::Kept);
    let whole = to(two, Place::meeting(3, &[1, 0, 2]), Answer::Kept);
    to(two, Place::meeting(3, &[2, 0, 1]), Answer::Broken(6));
    to(two, Place::meeting(3, &[1, 0, 1]), Answer::Broken(6));
    to(two, Place::meeting(3, &[2, 0, 2]), Answer::Broken(6));
    to(both, Place::meeting(3, &[2, 2, 2]), Answer::Kept);
    to(both, Place::meeting(3, &[1, 2, 2]), Answer::Broken(6));
    to(both, Place::meeting(3, &[2, 2, 1]), Answer::Broken(6));
    let second = to(lent(&states, 0, [255, 1], 4), Place::meeting(1, &[0]), Answer::Kept);
    to(second, Place::meeting(2, &[2]), Answer::Broken(5));
    to(second, Place::meeting(2, &[1]), Answer::Kept);
    let late = to(lent(&states, 2, NONE, 0), Place::meeting(3, &[1, 0, 2]), Answer::Kept);
    let wanted = [(one, [2, 255]), (two, [2, 1]), (both, [2, 2]), (whole, [2, 1]), (second, [0, 1]), (late, [2, 1])];
    for (l, objects) in wanted {
        report.check(carried_objects(&l) == objects, || format!("{:?} are carried, not {objects:?}", carried_objects(&l)));
    }
}

/// The first carried object is that of the variable that appears first in the question, under `not` too, whichever is repeated first.
fn carried_in_order(report: &mut Report) {
    let cases: [(&str, &[usize], [u32; 2]); 5] = [
        ("((A x) (B y)) ((A y)) ((A x))", &[0, 1], [0, 1]),
        ("((A x)) ((B y)) ((B y)) ((A x))", &[0], [0, 255]),
        ("((not (B y)) (B x) (A y)) ((B x)) ((A y))", &[0, 1], [0, 1]),
        ("((B z) (A y)) ((A y)) ((A z))", &[1, 0], [1, 0]),
        ("((B z) (A x) (A y)) ((A y)) ((A x))", &[1, 0, 1], [0, 1]),
    ];
    for (ask, named, wanted) in cases {
        let text = format!("(state A)\n(state B)\n(new (A))\n(ask {ask})\n");
        let l = put_to(report, &text, lent(&[1, 3], 0, NONE, 0), Place::meeting(1, named), Answer::Kept);
        report.check(carried_objects(&l) == wanted, || format!("{:?} are carried, not {wanted:?}, in {ask}", carried_objects(&l)));
    }
}

/// A cell that no carried variable uses is taken if its object was created, and stays; one that was not created is a misfit.
fn unused_cells(report: &mut Report) {
    let none = "(state A)\n(new (A))\n(ask ((A x)) ((A y)))\n";
    let one = "(state A)\n(new (A))\n(ask ((A x)) ((A x)))\n";
    let meeting = Place::meeting(1, &[0]);
    for (text, before, after) in
        [(none, [1, 255], [1, 255]), (none, [255, 1], [255, 1]), (none, [1, 1], [1, 1]), (one, [255, 1], [0, 1]), (one, [0, 1], [0, 1])]
    {
        let l = put_to(report, text, lent(&[1, 1], 0, before, 0), meeting, Answer::Kept);
        report.check(carried_objects(&l) == after, || format!("{before:?} becomes {:?}, not {after:?}:\n{text}", carried_objects(&l)));
    }
    for (text, before) in [(none, [2, 255]), (none, [255, 2]), (one, [255, 2]), (one, [0, 2])] {
        put_to(report, text, lent(&[1, 1], 0, before, 9), meeting, Answer::Broken(0));
    }
}

/// A state that often fits, with a wrong number in it now and then.
fn random_state(r: &mut Random, m: &Model) -> Lent {
    let objects: Vec<u32> = (0..r.below(5)).map(|_| r.below(1 << m.states) as u32).collect();
    let carried = [(); 2].map(|_| match r.below(10) {
        0..=4 => 255,
        5 => r.below(objects.len() + 1) as u32,
        _ => r.below(objects.len().max(1)) as u32,
    });
    let mut l = lent(&objects, r.below(m.stages.len() + 1) as u32, carried, r.below(9_344) as u32);
    if r.chance(10) {
        let cell = r.below(260);
        l[cell] = r.word() >> r.below(32);
    }
    l
}

/// Random states of random models, whether or not a run gives them.
fn random_states(report: &mut Report) {
    for seed in 1..=300 {
        let mut r = Random::new(seed + 1_000_000);
        let states = if seed % 4 == 0 { 8 + r.below(17) } else { 3 };
        let text = model(&mut r, Shape { states, relations: 3, clauses: 8, stages: 4 });
        let subject = Subject::new(text.as_bytes());
        let Ok(m) = &subject.read else { continue };
        for _ in 0..40 {
            let mut l = random_state(&mut r, m);
            let carried = carried_objects(&l).map(|o| (o < 255).then_some(o as usize));
            let place = guess::place(&mut r, m, l[OBJECTS] as usize % 300, l[MET] as usize, &carried);
            let given = subject.place(report, &mut l, place);
            report.cover(if given == Answer::Kept { "random lent states kept" } else { "random lent states broken" });
            if given == Answer::Kept && place >> 31 == 1 && carried.iter().all(|o| o.is_some()) && m.carried == 2 {
                report.cover("random lent states with a pair that meets");
            }
        }
    }
}

/// A rule for pairs of rather special states.
fn pair_rule(r: &mut Random, labels: usize) -> String {
    let literal = |r: &mut Random, v: &str| match r.below(2) {
        0 => format!(" (L{} {v})", r.below(labels)),
        _ => format!(" (not (L{} {v}))", r.below(labels)),
    };
    let others: String = ["x", "x", "y", "y"].iter().map(|v| literal(r, v)).collect();
    format!("(rule (E x y) (L{} x) (L{} y){others})\n", r.below(labels), r.below(labels))
}

/// A text about so many state relations, with pairs and their closure; the line that creates is the last but one.
fn closure_text(r: &mut Random, labels: usize) -> String {
    let mut text = wide::declared(labels);
    text += "(rel E 2)\n(rel T 2)\n(rel U 1)\n";
    for _ in 0..4 {
        text += &pair_rule(r, labels);
    }
    text + "(rule (T x y) (E x y))\n(rule (T x y) (T x z) (E z y))\n(rule (U x) (T x x))\n(new (L0) (U x))\n(ask ((T x y)))\n"
}

/// Databases of so many different states in any order, in which pairs and their closure are asked for.
fn all_states(report: &mut Report, seed: u64, labels: usize, count: usize, meetings: usize) {
    let mut r = Random::new(seed + 2_000_000);
    let text = closure_text(&mut r, labels);
    let subject = Subject::new(text.as_bytes());
    let mut states: Vec<u32> = (1..1 << labels).collect();
    r.shuffle(&mut states);
    states.truncate(count);
    for _ in 0..meetings {
        let named = [r.below(count), r.below(count)];
        let given = subject.place(report, &mut lent(&states, 0, NONE, 0), Place::meeting(1, &named).encode());
        let given = if given == Answer::Kept { "kept" } else { "broken" };
        report.cover(&format!("closure over {count} states: {given}"));
    }
    if count < OBJECTS {
        subject.place(report, &mut lent(&states, 0, NONE, 0), Place::Step(text.lines().count() as u32 - 1, count).encode());
    }
}

/// Runs all lent states.
pub fn all(report: &mut Report) {
    misfits(report);
    undeclared(report);
    edges(report);
    places_kept(report);
    carried(report);
    carried_pairs(report);
    carried_in_order(report);
    unused_cells(report);
    random_states(report);
    for seed in 1..=5 {
        all_states(report, seed, 7, 127, 6);
    }
    for (seed, labels) in [(11, 8), (13, 9), (15, 20)] {
        all_states(report, seed, labels, 255, 2);
    }
    all_states(report, 16, 24, 254, 1);
}
