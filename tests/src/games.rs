//! Attacker and guardian on one object (document 02, R-12): each position is decided by trying all plays to a sufficient depth.

use crate::beside::Stands;
use crate::calls::{self, Game, WORK};
use crate::counter::Counter;
use crate::meaning::{Action, Model};
use crate::random::Random;
use crate::report::Report;
use crate::subject::Subject;
use crate::wide::free;
use std::collections::HashMap;

/// The most lines that a side may have.
const LINES: usize = 10;

#[derive(Clone, Copy, PartialEq, Eq, Hash)]
enum Side {
    Attacker,
    Guardian,
}

/// The plays of two sides on one object, with what is known of a state, the side to move and a number of moves.
struct Plays<'a> {
    stands: &'a Stands,
    attacker: &'a [u32],
    guardian: &'a [u32],
    known: HashMap<(u32, Side, usize), bool>,
}

impl Plays<'_> {
    /// The states that the side to move may lead the object to: one for each own line that holds; the same state, by a pass, if none does.
    fn moves(&self, state: u32, side: Side) -> Vec<u32> {
        let own = if side == Side::Attacker { self.attacker } else { self.guardian };
        let moves: Vec<u32> = own.iter().filter_map(|line| self.stands[&state].steps.get(line).copied()).collect();
        if moves.is_empty() {
            return vec![state];
        }
        moves
    }

    /// Whether the attacker can force the object to meet the question within so many moves and passes, whatever the guardian does.
    fn forced(&mut self, state: u32, side: Side, within: usize) -> bool {
        if self.stands[&state].meets {
            return true;
        }
        if within == 0 {
            return false;
        }
        if let Some(known) = self.known.get(&(state, side, within)) {
            return *known;
        }
        let mut after = self.moves(state, side).into_iter();
        let forced = match side {
            Side::Attacker => after.any(|next| self.forced(next, Side::Guardian, within - 1)),
            Side::Guardian => after.all(|next| self.forced(next, Side::Attacker, within - 1)),
        };
        self.known.insert((state, side, within), forced);
        forced
    }

    /// The fewest moves within which the attacker can force it, who moves first; none if he cannot within more moves than there are positions.
    fn fewest(&mut self, state: u32) -> Option<u32> {
        let positions = 2 * self.stands.len();
        (0..=positions + 2).find(|within| self.forced(state, Side::Attacker, *within)).map(|within| within as u32)
    }
}

/// What each reachable state gets.
fn outcomes(stands: &Stands, attacker: &[u32], guardian: &[u32]) -> Vec<(u32, Option<u32>)> {
    let mut plays = Plays { stands, attacker, guardian, known: HashMap::new() };
    stands.keys().map(|state| (*state, plays.fewest(*state))).collect()
}

/// Whether a list is refused 21: too long, or with a line that is no `next` line.
fn bad(m: &Model, lines: &[u32]) -> bool {
    let is_next = |l: &u32| m.clauses.iter().any(|c| c.line == *l && matches!(c.action, Action::Next(..)));
    lines.len() > LINES || !lines.iter().all(is_next)
}

/// The refusal of a game where the text is accepted: for the lists, for the form of the question, or for too many states.
fn refusal(subject: &Subject, attacker: &[u32], guardian: &[u32]) -> Option<(u32, u32)> {
    let m = subject.read.as_ref().ok()?;
    if bad(m, attacker) || bad(m, guardian) {
        return Some((21, 0));
    }
    if m.stages.len() != 1 || m.stages[0].body.variables != 1 {
        return Some((22, 0));
    }
    subject.states().is_none().then_some((15, 0))
}

/// Who can force the outcome, and within how many moves.
fn kind(outcome: Option<u32>) -> &'static str {
    match outcome {
        Some(0) => "game: the attacker at once",
        Some(1..=3) => "game: the attacker within 1 to 3 moves",
        Some(_) => "game: the attacker within more than 3 moves",
        None => "game: the guardian",
    }
}

/// Puts a game with these lists, and compares refusal, outcomes and the work area with the plain ones.
pub fn put(report: &mut Report, subject: &Subject, attacker: &[u32], guardian: &[u32], work: usize) -> Game {
    let (game, area) = calls::game(&subject.text, attacker, guardian, work);
    let about = || format!("{game:?} for {attacker:?} against {guardian:?} with {work} bytes in\n{}", subject.show());
    report.check(area, || format!("work area: {}", about()));
    if let Some((number, line)) = subject.refusal(&[(12, work < WORK)]).or_else(|| refusal(subject, attacker, guardian)) {
        report.check(game == Game::Refused(number, line), || format!("{number} @ {line} expected: {}", about()));
        report.cover(&format!("game: refused {number:2}"));
        return game;
    }
    let wanted = Game::Told(outcomes(subject.stands().expect("a game that is not refused has few states"), attacker, guardian));
    report.check(game == wanted, || format!("{wanted:?} expected: {}", about()));
    game
}

/// How many lines the sides of a seeded game have: the guardian has fewer, so that he does not always escape.
const ATTACKER: [usize; 8] = [0, 1, 2, 4, 6, 8, 10, 10];
const GUARDIAN: [usize; 8] = [0, 1, 1, 2, 2, 3, 5, 10];

/// Some `next` lines of a model, in any order, and now and then a line twice.
fn some_lines(r: &mut Random, m: &Model, counts: &[usize]) -> Vec<u32> {
    let next: Vec<u32> = m.clauses.iter().filter(|c| matches!(c.action, Action::Next(..))).map(|c| c.line).collect();
    let count = if next.is_empty() { 0 } else { r.pick(counts) };
    (0..count).map(|_| r.pick(&next)).collect()
}

/// Puts a seeded game, and counts its outcomes.
fn seeded(report: &mut Report, subject: &Subject, attacker: &[u32], guardian: &[u32]) {
    let Game::Told(all) = put(report, subject, attacker, guardian, WORK + 9) else { return };
    for (_, outcome) in all {
        report.cover(kind(outcome));
    }
}

/// Puts some games to a seeded model, with right lists and with a damaged one.
pub fn lists(report: &mut Report, r: &mut Random, subject: &Subject) {
    let m = subject.read.as_ref().expect("a seeded model is accepted");
    for _ in 0..3 {
        seeded(report, subject, &some_lines(r, m, &ATTACKER), &some_lines(r, m, &GUARDIAN));
    }
    let mut damaged = some_lines(r, m, &ATTACKER);
    match r.below(4) {
        0 => damaged.push(r.word()),
        1 => damaged.push(r.below(40) as u32),
        2 => damaged.resize(LINES + 1, damaged.first().copied().unwrap_or(0)),
        _ => damaged.insert(0, 0),
    }
    let right = some_lines(r, m, &GUARDIAN);
    let (attacker, guardian) = if r.chance(50) { (damaged, right) } else { (right, damaged) };
    put(report, subject, &attacker, &guardian, r.pick(&[WORK, WORK, WORK - 1]));
}

/// Some lines of a counter: those for one or two numbers to count by, and now and then one of them is left out.
fn some_counting(r: &mut Random, lines: &[Vec<u32>]) -> Vec<u32> {
    let mut some: Vec<u32> = (0..r.pick(&[1, 1, 2])).flat_map(|_| lines[r.below(lines.len())].clone()).collect();
    if r.chance(40) {
        some.swap_remove(r.below(some.len()));
    }
    some
}

/// Puts some games to a seeded counter, on which each side counts up or down.
pub fn counted(report: &mut Report, r: &mut Random, subject: &Subject, lines: &[Vec<u32>]) {
    for _ in 0..4 {
        seeded(report, subject, &some_counting(r, lines), &some_counting(r, lines));
    }
}

/// A game whose outcomes are known by hand, for each reachable state.
fn told(report: &mut Report, text: &str, attacker: &[u32], guardian: &[u32], wanted: &[(u32, Option<u32>)]) {
    let game = put(report, &Subject::new(text.as_bytes()), attacker, guardian, WORK);
    report.check(game == Game::Told(wanted.to_vec()), || format!("{game:?}, not {wanted:?} for {attacker:?} against {guardian:?}:\n{text}"));
}

/// Line 5 leads {A} to {B}, line 6 to {C}, and line 7 nowhere else; line 8 leads {C} back to {A}, and line 9 wipes it.
const SMALL: &str = "(state A)\n(state B)\n(state C)\n(new (A))\n(next x (B) (A) (A x))\n(next x (C) (A) (A x))\n(next x () () (A x))\n(next x (A) (C) (C x))\n(next x () (C) (C x))\n";

/// Both sides with few lines: who must move, who passes, and what is counted. The empty state is always the guardian's, and {B} meets at once.
fn by_hand(report: &mut Report) {
    let text = format!("{SMALL}(ask ((B x)))\n");
    for (attacker, guardian, a, c) in [
        // nobody can move
        (&[][..], &[][..], None, None),
        // the attacker moves first, and passes where he has no line
        (&[5], &[], Some(1), None),
        (&[5], &[6], Some(1), None),
        (&[5], &[8], Some(1), Some(3)),
        (&[8], &[5], Some(2), Some(2)),
        // the guardian must move, but by a line that changes nothing or leads away if he has one
        (&[], &[5], Some(2), None),
        (&[], &[5, 8], Some(2), Some(4)),
        (&[], &[5, 7], None, None),
        (&[], &[5, 6], None, None),
        (&[], &[7], None, None),
        // the attacker must move too: away from where he would wait, or by a line that changes nothing
        (&[6], &[5], None, None),
        (&[7], &[5], Some(2), None),
        (&[6, 7], &[5], Some(2), None),
        // the guardian escapes: into a cycle, or to the empty state
        (&[8], &[5, 6], None, None),
        (&[6], &[8, 5], None, None),
        (&[5], &[9], Some(1), None),
        (&[5], &[8, 9], Some(1), None),
        (&[9, 8], &[5], Some(2), Some(2)),
        // a line in both lists, equal lists, lines named twice or ten times, and a tenth line that matters
        (&[5], &[5], Some(1), None),
        (&[8, 5], &[8, 5], Some(1), Some(2)),
        (&[5, 5], &[8, 8, 8], Some(1), Some(3)),
        (&[5; 10], &[8; 10], Some(1), Some(3)),
        (&[7, 7, 7, 7, 7, 7, 7, 7, 7, 5], &[], Some(1), None),
        (&[], &[5, 5, 5, 5, 5, 5, 5, 5, 5, 7], None, None),
    ] {
        told(report, &text, attacker, guardian, &[(0, None), (1, a), (2, Some(0)), (4, c)]);
    }
}

/// What stands by: a helper in the state that the object has left, and one in a state that only lines of neither side make; never one in a state that no
/// run gives.
fn helpers(report: &mut Report) {
    let left = "(state A)\n(state B)\n(state C)\n(new (A))\n(next x (B) (A) (A x))\n(next x (C) (B) (B x) (A y))\n(ask ((C x)))\n";
    told(report, left, &[5, 6], &[], &[(1, Some(3)), (2, Some(1)), (4, Some(0))]);
    told(report, left, &[5], &[6], &[(1, Some(2)), (2, Some(2)), (4, Some(0))]);
    told(report, left, &[], &[5, 6], &[(1, Some(4)), (2, Some(2)), (4, Some(0))]);
    let neither =
        "(state A)\n(state H)\n(state K)\n(new (A))\n(new (H))\n(next x (K) () (H x))\n(next x (K) (A) (A x) (H y) (K y))\n(ask ((K x) (not (H x))))\n";
    told(report, neither, &[7], &[], &[(1, Some(1)), (2, None), (4, Some(0)), (6, None)]);
    told(report, neither, &[], &[7], &[(1, Some(2)), (2, None), (4, Some(0)), (6, None)]);
    let never = "(state A)\n(state B)\n(state C)\n(new (A))\n(next x (B) (A) (A x) (C y))\n(ask ((B x)))\n";
    told(report, never, &[5], &[5], &[(1, None)]);
    let empty = "(state A)\n(new ())\n(next x (A) () (A x))\n(ask ((A x)))\n";
    told(report, empty, &[3], &[3], &[(0, None)]);
    told(report, "(state A)\n(next x () () (A x))\n(ask ((A x)))\n", &[2], &[2], &[]);
}

/// Questions of the right form: with helpers by derived relations, with `not`, with literals without variables, and with a variable that stands twice.
fn questions(report: &mut Report) {
    let start = "(state A)\n(state B)\n(rel N 0)\n(rel R 1)\n(rel W 2)\n(new (A))\n(next x (B) () (A x))\n(next x () (A) (B x))\n";
    let rules = "(rule (N) (B y) (not (A y)))\n(rule (R x) (W x y))\n(rule (W x y) (A x) (B y))\n";
    for (ask, a, b, ab) in [
        ("(R x)", Some(0), None, Some(0)),
        ("(W x x)", Some(1), None, Some(0)),
        ("(N) (B x)", Some(1), Some(0), Some(0)),
        ("(N) (B x) (not (A x))", Some(3), Some(0), Some(1)),
        ("(not (A x)) (A x)", None, None, None),
        ("(N) (N) (R x) (A x) (A x) (not (B x)) (W x x) (R x)", None, None, None),
        ("(N) (N) (R x) (A x) (A x) (B x) (W x x) (R x)", Some(1), None, Some(0)),
    ] {
        let text = format!("{start}{rules}(ask ({ask}))\n");
        told(report, &text, &[7, 8], &[], &[(1, a), (2, b), (3, ab)]);
    }
}

/// The example of README: the account is locked in time, or handed a weak password again by a guardian who must move.
fn example(report: &mut Report) {
    let text = include_str!("../../examples/account.eon");
    let locked = [(3, None), (5, None), (7, Some(1)), (13, None), (15, None), (23, Some(0)), (32, None)];
    told(report, text, &[9, 10], &[11, 12, 13], &locked);
    let open = [(3, Some(5)), (5, Some(3)), (7, Some(1)), (13, None), (15, None), (23, Some(0)), (32, None)];
    told(report, text, &[9, 10], &[11, 12], &open);
}

/// Long games on a counter, also with twenty-four labels: the attacker waits and the guardian must count, with and without the empty state; both count; and
/// the attacker adds two where the guardian takes one.
fn long(report: &mut Report) {
    for first in [0, 17] {
        let mut counter = Counter::new(first..first + 7);
        let up = counter.adding(0);
        let each = |moves: fn(u32) -> u32| (1..=127).map(|n| (n << first, Some(moves(n)))).collect::<Vec<_>>();
        let with_empty = |moves: fn(u32) -> u32| [&[(0, None)], &each(moves)[..]].concat();
        told(report, &counter.asked(127), &[], &up, &each(|n| 2 * (127 - n)));
        counter.wiping(127);
        told(report, &counter.asked(127), &[], &up, &with_empty(|n| 2 * (127 - n)));
        told(report, &counter.asked(127), &up, &up, &with_empty(|n| 127 - n));
        let (two, down) = (counter.adding(1), counter.taking(0));
        let tug = |n| match n {
            126 => 3,
            127 => 0,
            _ => 2 * (127 - n) - 3,
        };
        told(report, &counter.asked(127), &two, &down, &with_empty(tug));
    }
}

/// Lists of ten lines are fine, of eleven they are refused, and so are lines that are no `next` line, on either side.
fn bad_lists(report: &mut Report) {
    let rules = "(rel R 1)\n(rule (R x) (A x))\n";
    let subject = Subject::new(format!("{SMALL}{rules}(ask ((R x)))\n").as_bytes());
    let mut lists: Vec<Vec<u32>> = [0, 1, 3, 4, 10, 11, 12, 13, 14, 5 + 256, 5 + 65_536, 1 << 31 | 5, u32::MAX].map(|line| vec![line]).to_vec();
    lists.extend([vec![5; 11], vec![5; 300], vec![5, 6, 7, 8, 9, 5, 6, 7, 8, 4], vec![4, 5], vec![0; 11]]);
    for bad in &lists {
        for right in [&[][..], &[5], &[5; 10], bad] {
            for (attacker, guardian) in [(&bad[..], right), (right, bad)] {
                let game = put(report, &subject, attacker, guardian, WORK + 1);
                report.check(game == Game::Refused(21, 0), || format!("{game:?}, not 21 for {attacker:?} against {guardian:?}"));
            }
        }
    }
    put(report, &subject, &[5, 6, 7, 8, 9, 5, 6, 7, 8, 9], &[9, 8, 7, 6, 5, 5, 6, 7, 8, 9], WORK);
}

/// The order of the refusals: the text's size, the work area, the lines and the missing question, the lists, the form of the question, too many states.
fn order(report: &mut Report) {
    let many = free(8, "(rel N 0)\n(rule (N) (L0 x))\n(rel W 2)\n(rule (W x y) (L0 x) (L0 y))\n");
    let asks =
        ["((L0 x)) ((L1 x))", "((L0 x)) ((L0 x))", "((N))", "((N)) ((N))", "((L0 x) (L1 y))", "((W x y))", "((L0 x) (L1 y) (L2 z))", "((L0 x)) ((L1 y))"];
    let few = many.replace("(next x (L7) () (L0 x))\n", "(next x () (L7) (L0 x))\n");
    for ask in asks {
        for text in [&many, &few] {
            let subject = Subject::new(format!("{text}(ask {ask})\n").as_bytes());
            refused(report, &subject, &[10], WORK, (22, 0));
            refused(report, &subject, &[9], WORK, (21, 0));
            refused(report, &subject, &[10], WORK - 1, (12, 0));
        }
    }
    let subject = Subject::new(format!("{many}(ask ((L0 x)))\n").as_bytes());
    for (lines, work, row) in [(&[10][..], WORK, 15), (&[10], WORK + 1, 15), (&[9], WORK, 21), (&[10; 11], WORK, 21), (&[10], WORK - 1, 12), (&[9], 0, 12)] {
        refused(report, &subject, lines, work, (row, 0));
    }
    for (last, row, line) in [
        ("", 10, 21),
        ("(ask ((W x y)))\n(ask ((W x y)))\n", 10, 22),
        ("(ask ((W x y)))", 2, 21),
        ("(ask ((W x y) ))\n", 3, 21),
        ("(state L0)\n", 5, 21),
        ("(ask ((Z x y)))\n", 6, 21),
        ("(ask ((W x)))\n", 7, 21),
    ] {
        let subject = Subject::new(format!("{many}{last}").as_bytes());
        refused(report, &subject, &[10], WORK, (row, line));
        refused(report, &subject, &[9], WORK, (row, line));
        refused(report, &subject, &[9; 11], WORK - 1, (12, 0));
    }
    for text in [vec![], vec![b'('; 16_385]] {
        refused(report, &Subject::new(&text), &[0], WORK - 1, (1, 0));
    }
}

/// A refusal that is known by hand, with the list on either side.
fn refused(report: &mut Report, subject: &Subject, lines: &[u32], work: usize, (number, line): (u32, u32)) {
    for (attacker, guardian) in [(lines, &[][..]), (&[], lines), (lines, lines)] {
        let game = put(report, subject, attacker, guardian, work);
        report.check(game == Game::Refused(number, line), || format!("{game:?}, not {number} @ {line} for {attacker:?} against {guardian:?}"));
    }
}

/// Runs all games that are known by hand.
pub fn all(report: &mut Report) {
    by_hand(report);
    helpers(report);
    questions(report);
    example(report);
    long(report);
    bad_lists(report);
    order(report);
}
