//! Models checked by hand: document 01's own, and those that a good reader of the paper gets wrong.

use crate::calls::{Answer, OBJECTS};
use crate::meaning::Place;
use crate::report::Report;
use crate::seeded::place_by_place;
use crate::subject::{fresh, Subject};

const OFFICE: &str =
    "(state Admin)\n(state User)\n(rel Control 1)\n(new (Admin))\n(new (User))\n(next x (Admin) () (User x) (Admin y))\n(rule (Control x) (Admin x))\n";
const AB: &str = "(state A)\n(state B)\n";
/// With two lines of clauses; a question is line 5.
const MOVING: &str = "(state A)\n(state B)\n(new (A))\n(next x (B) (A) (A x))\n";

/// The verdict and the reachable states of a text; a shown run is replayed.
pub fn verdict(report: &mut Report, text: &str, reached: bool, states: &[u32]) -> Vec<u32> {
    let subject = Subject::new(text.as_bytes());
    let a = subject.analyze(report);
    let right = match a.answer {
        Answer::Reached(_) => reached,
        Answer::Unreached => !reached,
        _ => false,
    };
    report.check(right, || format!("{:?}, reached should be {reached}:\n{text}", a.answer));
    report.check(a.states == states, || format!("states {:?}, not {states:?}:\n{text}", a.states));
    if reached {
        let kept = subject.replay(report, &a.run);
        report.check(kept == Answer::Kept, || format!("the shown run {:?} is {kept:?}:\n{text}", a.run));
        place_by_place(report, &subject, &a.run);
    }
    a.run
}

/// The answer to a run, whole and place by place.
pub fn answer(report: &mut Report, text: &str, run: &[Place], wanted: Answer) {
    let subject = Subject::new(text.as_bytes());
    let numbers: Vec<u32> = run.iter().map(Place::encode).collect();
    let given = subject.replay(report, &numbers);
    report.check(given == wanted, || format!("{given:?}, not {wanted:?} to {run:?}:\n{text}"));
    let broken = place_by_place(report, &subject, &numbers);
    let first = match wanted {
        Answer::Broken(i) if i < run.len() => Some(i),
        _ => None,
    };
    report.check(broken == first, || format!("place by place broken at {broken:?}, not {first:?} to {run:?}:\n{text}"));
}

pub fn step(line: u32, object: usize) -> Place {
    Place::Step(line, object)
}

pub fn meet(stage: usize, objects: &[usize]) -> Place {
    Place::meeting(stage, objects)
}

/// Both questions of the office, and its allowed run.
fn office(report: &mut Report) {
    let one = format!("{OFFICE}(ask ((User x) (not (Admin x)) (Control x)))\n");
    let two = format!("{OFFICE}(ask ((User x) (not (Admin x))) ((Control x)))\n");
    verdict(report, &one, false, &[1, 2, 3]);
    verdict(report, &two, true, &[1, 2, 3]);
    let run = [step(4, 0), step(5, 1), meet(1, &[1]), step(6, 1), meet(2, &[1])];
    answer(report, &two, &run, Answer::Kept);
    answer(report, &two, &run[..4], Answer::Broken(4));
    answer(report, &two, &[&run[..], &[step(4, 2)]].concat(), Answer::Broken(5));
    answer(report, &two, &[run[0], run[1], meet(1, &[0])], Answer::Broken(2));
    answer(report, &two, &[run[0], run[1], run[2], meet(2, &[0])], Answer::Broken(3));
    answer(report, &two, &[step(5, 0), step(6, 0)], Answer::Broken(1));
    answer(report, &two, &[run[1]], Answer::Broken(0));
    answer(report, &two, &[], Answer::Broken(0));
    answer(report, &two, &[step(5, 0), step(4, 1), meet(1, &[0]), step(6, 0), meet(2, &[0])], Answer::Kept);
}

/// The small models with states A and B.
fn by_hand(report: &mut Report) {
    verdict(report, &format!("{AB}(new (A) (A y))\n(ask ((A x)))\n"), false, &[]);
    let one = format!("{AB}(new (A))\n(ask ((A x)) ((A x)))\n");
    verdict(report, &one, true, &[1]);
    answer(report, &one, &[step(3, 0), meet(1, &[0]), meet(2, &[0])], Answer::Kept);
    verdict(report, &format!("{MOVING}(ask ((A x)) ((B x)))\n"), true, &[1, 2]);
    verdict(report, &format!("{MOVING}(ask ((B x)) ((A x)))\n"), false, &[1, 2]);
    verdict(report, &format!("{MOVING}(ask ((B x)) ((A y)))\n"), true, &[1, 2]);
    let both = format!("{MOVING}(ask ((A x) (B y)))\n");
    let run = verdict(report, &both, true, &[1, 2]);
    let meeting = run.last().and_then(|n| Place::decode(*n));
    report.check(matches!(meeting, Some(Place::Meeting(1, [a, b, 255])) if a != b), || format!("two objects: {meeting:?}"));
    answer(report, &both, &[step(3, 0), step(3, 1), step(4, 1), meet(1, &[0, 1])], Answer::Kept);
    answer(report, &both, &[step(3, 0), step(3, 1), step(4, 1), meet(1, &[1, 0])], Answer::Broken(3));
}

/// `(next x (A) (A) (B x))` takes {B} to {B} and {A, B} to {B}.
fn set_then_clear(report: &mut Report) {
    let text = format!("{AB}(new (B))\n(next x (A) (A) (B x))\n(ask ((A x)))\n");
    verdict(report, &text, false, &[2]);
    for state in [2, 3] {
        let subject = Subject::new(text.as_bytes());
        let mut lent = fresh();
        (lent[0], lent[OBJECTS]) = (state, 1);
        let kept = subject.place(report, &mut lent, step(4, 0).encode());
        report.check(kept == Answer::Kept && lent[0] == 2, || format!("{state} goes to {}", lent[0]));
    }
}

/// Errors that a good reader of the paper makes.
fn errors_of_readers(report: &mut Report) {
    let helpers = "(state A)\n(state B)\n(state C)\n(new (A))\n(next x (B) (A) (A x))\n(next x (C) (B) (B x) (A y))\n";
    verdict(report, &format!("{helpers}(ask ((C x)))\n"), true, &[1, 2, 4]);
    verdict(report, &format!("{helpers}(ask ((C x) (B y) (A z)))\n"), true, &[1, 2, 4]);
    let wiped = "(state A)\n(state B)\n(state C)\n(new (A))\n(next x () (A) (A x))\n(new (B) (A x))\n(next x (C) () (B x) (A y))\n";
    verdict(report, &format!("{wiped}(ask ((A x)) ((B x)))\n"), false, &[0, 1, 2, 6]);
    verdict(report, &format!("{wiped}(ask ((C x)) ((B y) (not (C y))) ((A z)))\n"), true, &[0, 1, 2, 6]);
    let same = "(state A)\n(rel W 2)\n(new (A))\n(rule (W x y) (A x) (A y))\n";
    let text = format!("{same}(ask ((W x y) (A x) (A y)))\n");
    verdict(report, &text, true, &[1]);
    answer(report, &text, &[step(3, 0), meet(1, &[0, 0])], Answer::Kept);
    let pairs = "(state A)\n(state B)\n(rel E 2)\n(rel T 2)\n(new (A))\n(new (B))\n(rule (E x y) (A x) (B y))\n(rule (T x y) (E x y))\n(rule (T x y) (T x z) (T z y))\n";
    verdict(report, &format!("{pairs}(ask ((T x x)))\n"), false, &[1, 2]);
    verdict(report, &format!("{pairs}(rule (E x y) (B x) (A y))\n(ask ((T x x) (A x)))\n"), true, &[1, 2]);
}

/// Facts handed from the last declared relation to the first and on from there, by rules in the opposite order, so that each waits for the next.
fn handed_down(report: &mut Report) {
    let relations = "(rel N 0)\n(rel L 1)\n(rel P 1)\n(rel Q 1)\n(rel R 2)\n(rel S 2)\n(rel T 2)\n";
    let rules = "(rule (L x) (N) (B x))\n(rule (N) (P x))\n(rule (P x) (Q x))\n(rule (Q x) (R x y))\n(rule (R x y) (S y x))\n(rule (S x y) (T y x))\n(rule (T x y) (A x) (B y))\n";
    let text = format!("{AB}{relations}{rules}");
    verdict(report, &format!("{text}(new (A B))\n(ask ((L x)))\n"), true, &[3]);
    verdict(report, &format!("{text}(new (A))\n(new (B))\n(ask ((N)))\n"), true, &[1, 2]);
    verdict(report, &format!("{text}(new (A))\n(new (B))\n(ask ((L x) (B x)))\n"), true, &[1, 2]);
    verdict(report, &format!("{text}(new (A))\n(new (B))\n(ask ((Q x) (B x)))\n"), false, &[1, 2]);
    verdict(report, &format!("{text}(new (A))\n(new (B))\n(ask ((Q x) (A x)))\n"), true, &[1, 2]);
}

/// Nullary facts met by the first database, several stages in one database, and bits that count `state` lines only.
fn readings(report: &mut Report) {
    let first = "(rel N 0)\n(rule (N))\n";
    let one = verdict(report, &format!("{first}(ask ((N)))\n"), true, &[]);
    report.check(one == [meet(1, &[]).encode()], || format!("{one:?}"));
    let three = verdict(report, &format!("{first}(ask ((N)) ((N)) ((N)))\n"), true, &[]);
    report.check(three == [1, 2, 3].map(|s| meet(s, &[]).encode()), || format!("{three:?}"));
    let bits = "(rel R 1)\n(state A)\n(rel W 2)\n(state B)\n(rel N 0)\n(state C)\n(new (C))\n(next x (B) () (C x))\n(ask ((N)))\n";
    verdict(report, bits, false, &[4, 6]);
    verdict(report, "(state A)\n(new ())\n(new (A) (A x))\n(ask ((A x)))\n", false, &[0]);
    verdict(report, "(state A)\n(ask ((A x)))\n", false, &[]);
    let order = format!("{AB}(new (A))\n(new (B))\n(ask ((not (A y)) (A x) (B y)))\n");
    answer(report, &order, &[step(3, 0), step(4, 1), meet(1, &[1, 0])], Answer::Kept);
    answer(report, &order, &[step(3, 0), step(4, 1), meet(1, &[0, 1])], Answer::Broken(2));
    let carried = "(state A)\n(state B)\n(new (A))\n(next x (B) (A) (A x))\n(next x () (B) (B x))\n";
    verdict(report, &format!("{carried}(ask ((A x)) ((B x)) ((A y)))\n"), true, &[0, 1, 2]);
    verdict(report, &format!("{carried}(ask ((A x)) ((B x)) ((A x)))\n"), false, &[0, 1, 2]);
    verdict(report, &format!("{carried}(ask ((A x)) ((B y)) ((A x)) ((B x)))\n"), true, &[0, 1, 2]);
}

/// The paper's section 5.1.1: is an object that a Low process wrote executed by a process that was High and is Med? Its derivation is a run, and a
/// process that was never High is not the one.
fn privilege(report: &mut Report) {
    let text = include_str!("../../examples/vista-escalation.eon");
    let line = |form: &str| 1 + text.lines().position(|l| l == form).expect("a line of the example") as u32;
    let [low, med, high] = ["(new (Low))", "(new (Med))", "(new (High))"].map(line);
    let process = line("(next x (P) () (Obj x))");
    let raise = line("(next y (Med) (Low) (Low y) (not (P y)) (ByMed))");
    let fall = line("(next x (Med) (High) (High x) (P x))");
    verdict(report, text, true, &[2, 3, 4, 5, 8, 9]);
    let wrote = [step(low, 0), step(low, 1), step(process, 1), meet(1, &[1, 0])];
    let raised = [step(med, 2), step(process, 2), step(raise, 0)];
    let fell = [step(high, 3), step(process, 3), meet(2, &[3]), step(fall, 3)];
    let before = [&wrote[..], &raised, &fell].concat();
    answer(report, text, &[&before[..], &[meet(3, &[3, 0])]].concat(), Answer::Kept);
    answer(report, text, &[&before[..], &[meet(3, &[2, 0])]].concat(), Answer::Broken(11));
    answer(report, text, &[&before[..], &[meet(3, &[3, 2])]].concat(), Answer::Broken(11));
}

/// The paper's section 5.1.2, with its eleven labels: neither question is reached. As the paper prints the line that makes a process, the first one is.
fn discipline(report: &mut Report) {
    let objects = (0..3).flat_map(|bound| (bound..3).map(move |level| 1 | 4 << level | 32 << bound));
    let processes = objects.clone().flat_map(|object| (0..3).map(move |known| object | 2 | 256 << known));
    let mut states: Vec<u32> = objects.chain(processes).collect();
    states.sort_unstable();
    verdict(report, include_str!("../../examples/vista-discipline-tampering.eon"), false, &states);
    verdict(report, include_str!("../../examples/vista-discipline-escalation.eon"), false, &states);
    let printed = Subject::new(include_bytes!("../../examples/vista-discipline-printed.eon")).analyze(report).answer;
    report.check(matches!(printed, Answer::Reached(_)), || format!("{printed:?} to the discipline as it is printed"));
}

/// Pairs of objects that stay what they are: alike or not.
const ALIKE: &str = "(state A)\n(state B)\n(rel W 2)\n(rel V 2)\n(new (A))\n(new (B))\n(rule (W x y) (A x) (A y))\n(rule (W x y) (B x) (B y))\n(rule (V x y) (A x) (B y))\n(rule (V x y) (B x) (A y))\n";

/// The pair that met one stage is the pair that meets the next, also where a stage between has one of the two or neither.
fn pairs(report: &mut Report) {
    let states = &[1, 2];
    for (ask, reached) in [
        ("((V x y)) ((V x y))", true),
        ("((V x y)) ((V y x))", true),
        ("((W x y)) ((V x y))", false),
        ("((W x y)) ((V x z))", true),
        ("((W x y)) ((V z y))", true),
        ("((W x y)) ((A x)) ((A y))", true),
        ("((W x y)) ((A x)) ((B y))", false),
        ("((V x y)) ((A x)) ((A y))", false),
        ("((W x y)) ((V a b)) ((A x) (B y))", false),
        ("((W x y)) ((V a b)) ((A x) (A y))", true),
        ("((A x)) ((B y)) ((V x y))", true),
        ("((A x)) ((B y)) ((V y x))", true),
        ("((A x)) ((B y)) ((W x y))", false),
        ("((A x)) ((W x y)) ((B y))", false),
        ("((W x y)) ((V y z)) ((B x))", true),
        ("((W x y)) ((V y z) (A z)) ((A x))", false),
        ("((A x) (B y)) ((A y)) ((A x))", false),
        ("((A x) (B y)) ((B y)) ((A x))", true),
    ] {
        verdict(report, &format!("{ALIKE}(ask {ask})\n"), reached, states);
    }
    let moving = format!("{ALIKE}(next x (B) (A) (A x))\n");
    for (ask, reached) in [
        ("((W x y)) ((V x y))", true),
        ("((V x y) (A x)) ((W x y))", true),
        ("((V x y) (A x)) ((V y x) (A y))", false),
        ("((W x y) (A x)) ((V x y)) ((V y x) (A y))", true),
        ("((W x y) (A x)) ((V x y) (A y)) ((A x))", false),
        ("((A x)) ((B y)) ((W x y))", true),
        ("((B x)) ((A y)) ((V x y)) ((W x y))", true),
        ("((B x)) ((A y)) ((W x y)) ((V x y))", false),
    ] {
        verdict(report, &format!("{moving}(ask {ask})\n"), reached, states);
    }
}

/// Runs that carry a pair: two objects, one object for both, and objects that are not the pair that met.
fn runs_of_pairs(report: &mut Report) {
    let made = [step(5, 0), step(6, 1), step(5, 2)];
    let asked = |ask: &str| format!("{ALIKE}(ask {ask})\n");
    let mut tried = |ask: &str, first: &[usize], second: &[usize], wanted: Answer| {
        answer(report, &asked(ask), &[&made[..], &[meet(1, first), meet(2, second)]].concat(), wanted);
    };
    let alike = "((W x y)) ((W y x))";
    tried(alike, &[0, 2], &[2, 0], Answer::Kept);
    tried(alike, &[0, 2], &[0, 2], Answer::Broken(4));
    tried(alike, &[0, 2], &[2, 2], Answer::Broken(4));
    tried(alike, &[0, 2], &[0, 0], Answer::Broken(4));
    tried(alike, &[2, 2], &[2, 2], Answer::Kept);
    tried(alike, &[2, 2], &[2, 0], Answer::Broken(4));
    tried(alike, &[2, 2], &[0, 2], Answer::Broken(4));
    let apart = "((V x y)) ((V x y))";
    tried(apart, &[0, 1], &[0, 1], Answer::Kept);
    tried(apart, &[0, 1], &[2, 1], Answer::Broken(4));
    tried(apart, &[0, 1], &[1, 0], Answer::Broken(4));
    tried(apart, &[0, 0], &[0, 0], Answer::Broken(3));
    let late = asked("((A x)) ((A y)) ((W y x))");
    let run = |objects: [usize; 4]| [&made[..], &[meet(1, &objects[..1]), meet(2, &objects[1..2]), meet(3, &objects[2..])]].concat();
    answer(report, &late, &run([0, 2, 2, 0]), Answer::Kept);
    answer(report, &late, &run([0, 0, 0, 0]), Answer::Kept);
    answer(report, &late, &run([0, 2, 0, 2]), Answer::Broken(5));
    answer(report, &late, &run([0, 2, 2, 2]), Answer::Broken(5));
    answer(report, &late, &run([0, 2, 0, 0]), Answer::Broken(5));
}

/// The empty state is listed first where an object comes to it, by creation or by clearing, and nowhere else; such an object does nothing more.
fn empty_state(report: &mut Report) {
    let asked = "(ask ((A x)))\n";
    let created = format!("{AB}(new ())\n(next x (A) () (A x))\n{asked}");
    verdict(report, &created, false, &[0]);
    answer(report, &created, &[step(3, 0), step(4, 0)], Answer::Broken(1));
    answer(report, &created, &[step(3, 0), meet(1, &[0])], Answer::Broken(1));
    verdict(report, &format!("{AB}(new (A))\n(next x () (A) (A x))\n{asked}"), true, &[0, 1]);
    verdict(report, &format!("{AB}(new (B))\n(next x (A) (A B) (B x))\n{asked}"), false, &[0, 2]);
    verdict(report, &format!("{AB}(new (A B))\n(next x () (A) (A x))\n{asked}"), true, &[2, 3]);
    for guarded in ["(new () (B y))\n", "(next x () (A) (A x) (B y))\n", "(next x () (A) (A x) (N))\n"] {
        let text = format!("{AB}(rel N 0)\n(rule (N) (B y))\n(new (A))\n{guarded}");
        verdict(report, &format!("{text}{asked}"), true, &[1]);
        verdict(report, &format!("{text}(new (B))\n{asked}"), true, &[0, 1, 2]);
    }
    verdict(report, &format!("{AB}(next x () (A) (A x))\n{asked}"), false, &[]);
    verdict(report, &format!("{AB}(new () (A x))\n{asked}"), false, &[]);
    let names = ["A", "B", "C", "D", "E", "F", "G"];
    let mut all: String = names.iter().map(|n| format!("(state {n})\n")).collect();
    all += &format!("(new ({}))\n", names.join(" "));
    all.extend(names.iter().map(|n| format!("(next x () ({n}) ({n} x))\n")));
    verdict(report, &format!("{all}{asked}"), true, &(0..128).collect::<Vec<u32>>());
}

/// Places of none of the forms, and those that the semantics do not allow.
fn places(report: &mut Report) {
    let text = format!("{AB}(new (A))\n(next x (B) (A) (A x))\n(next x () () (A x))\n(next x () (B) (B x))\n(rel R 1)\n(rule (R x) (A x))\n(ask ((A x) (not (B y)) (A y)) ((B x)))\n");
    let start = [step(3, 0)];
    for place in [
        step(0, 0),
        step(1, 0),
        step(2, 1),
        step(7, 0),
        step(8, 0),
        step(9, 0),
        step(10, 1),
        step(16_000, 0),
        step(8_388_607, 0),
        step(3, 0),
        step(3, 2),
        step(4, 1),
        step(6, 0),
    ] {
        answer(report, &text, &[&start[..], &[place]].concat(), Answer::Broken(1));
    }
    for place in [
        meet(0, &[0, 0]),
        meet(2, &[0]),
        meet(1, &[]),
        meet(1, &[0]),
        meet(1, &[0, 0, 0]),
        meet(1, &[0, 1]),
        meet(1, &[1, 0]),
        meet(127, &[0, 0]),
        meet(1, &[0, 255, 0]),
        meet(1, &[255, 0]),
    ] {
        answer(report, &text, &[&start[..], &[place]].concat(), Answer::Broken(1));
    }
    let subject = Subject::new(text.as_bytes());
    for place in [3 * 256 + 255, 255, u32::MAX, 2_147_483_648, 2_147_483_647, 0] {
        let broken = subject.replay(report, &[step(3, 0).encode(), place]);
        report.check(broken == Answer::Broken(1), || format!("{broken:?} to {place}"));
    }
    let whole = [step(3, 0), step(5, 0), step(3, 1), meet(1, &[0, 0]), step(4, 0), meet(2, &[0])];
    answer(report, &text, &whole, Answer::Kept);
    answer(report, &text, &[&whole[..4], &[step(4, 1), meet(2, &[1])]].concat(), Answer::Broken(5));
    answer(report, &text, &[step(3, 0), meet(1, &[0, 0]), step(4, 0), step(6, 0), step(3, 1), step(4, 1), meet(2, &[1])], Answer::Broken(6));
}

/// 255 objects, the highest number being 254.
fn many_objects(report: &mut Report) {
    let text = format!("{AB}(new (A))\n(ask ((A x)))\n");
    let subject = Subject::new(text.as_bytes());
    let mut run: Vec<u32> = (0..255).map(|o| step(3, o).encode()).collect();
    let kept = subject.replay(report, &[&run[..], &[meet(1, &[254]).encode()]].concat());
    report.check(kept == Answer::Kept, || format!("255 objects: {kept:?}"));
    run.push(3 * 256 + 255);
    let broken = subject.replay(report, &run);
    report.check(broken == Answer::Broken(255), || format!("256 objects: {broken:?}"));
}

/// A run of 9,344 places is replayed, one of 9,345 is not.
fn long_runs(report: &mut Report) {
    let text = format!("{AB}(new (A))\n(next x () () (A x))\n(ask ((A x)))\n");
    let subject = Subject::new(text.as_bytes());
    let mut run = vec![step(4, 0).encode(); 9_344];
    run[0] = step(3, 0).encode();
    run[9_343] = meet(1, &[0]).encode();
    for (places, wanted) in [(9_344, Answer::Kept), (9_343, Answer::Broken(9_343))] {
        let given = subject.replay(report, &run[..places]);
        report.check(given == wanted, || format!("{places} places: {given:?}"));
    }
    run.insert(1, step(4, 0).encode());
    let refused = subject.replay(report, &run);
    report.check(refused == Answer::Refused(14, 0), || format!("9,345 places: {refused:?}"));
    let bad = Subject::new(b"(state A!)\n").replay(report, &run);
    report.check(bad == Answer::Refused(14, 0), || format!("14 comes before the lines: {bad:?}"));
}

/// Runs all models that are checked by hand.
pub fn all(report: &mut Report) {
    office(report);
    by_hand(report);
    set_then_clear(report);
    errors_of_readers(report);
    handed_down(report);
    readings(report);
    privilege(report);
    discipline(report);
    pairs(report);
    runs_of_pairs(report);
    empty_state(report);
    places(report);
    many_objects(report);
    long_runs(report);
}
