//! One object beside one further object of every reachable state: a shortest way, and the game of attacker and guardian.

use super::engine::{Engine, Head};
use super::row::Row;
use super::text::{Act, Model};

const N: usize = 128;
/// The place of the empty state, which has no slot.
const EMPTY: usize = 127;
/// The single relation of the states that meet the only stage.
const MEETS: usize = 80;
/// No number of moves.
const NEVER: u32 = 255;
type R = Row<2>;

/// The reachable states with the facts over them; there are at most 127.
fn explored(m: &Model) -> Box<Engine<'_, N, 2>> {
    let mut e: Box<Engine<N, 2>> = Box::new(Engine::new(m, true));
    e.saturate();
    assert!(!e.over, "too many states");
    e
}

/// The place that a clause leads to from a place, where it is a `next` line that holds there.
fn step(e: &Engine<N, 2>, i: usize, a: usize) -> Option<usize> {
    let holds = matches!(e.clauses[i].act, Act::Next { .. }) && e.t.one[16 + i].get(a);
    holds.then(|| (e.leads[i][a] as usize).min(EMPTY))
}

/// The place of a reachable state.
fn place(e: &Engine<N, 2>, state: u32) -> usize {
    e.t.states[..e.t.n].iter().position(|&s| s == state).unwrap_or(EMPTY)
}

/// The steps of a shortest way from a state to another, by breadth; none where there is no way.
pub fn way(m: &Model, from: u32, to: u32) -> Option<usize> {
    let e = explored(m);
    let (from, to) = (place(&e, from), place(&e, to));
    let mut far = [0; N];
    let mut seen = R::one(from);
    let mut queue = vec![from];
    let mut head = 0;
    while !seen.get(to) {
        let a = *queue.get(head)?;
        head += 1;
        for t in (0..e.clauses.len()).filter_map(|i| step(&e, i, a)) {
            if !seen.get(t) {
                seen.set(t);
                far[t] = far[a] + 1;
                queue.push(t);
            }
        }
    }
    Some(far[to])
}

/// The places that a side's lines lead to, by place; the place itself where the side passes.
fn moves(e: &Engine<N, 2>, lines: &[u32]) -> [R; N] {
    let own: Vec<usize> = (0..e.clauses.len()).filter(|&i| lines.contains(&e.clauses[i].line)).collect();
    let mut rows = [R::ZERO; N];
    for (a, row) in rows.iter_mut().enumerate() {
        for t in own.iter().filter_map(|&i| step(e, i, a)) {
            row.set(t);
        }
        if row.none() {
            row.set(a);
        }
    }
    rows
}

/// For each reachable state, by rising number, the moves within which the attacker can force that the object meets the question, by rounds; 255 for never.
pub fn game(m: &Model, attacker: &[u32], guardian: &[u32]) -> Vec<u32> {
    let mut e = explored(m);
    e.stage(&m.stages[0].body, Head { arity: 1, rel: MEETS });
    let meets = e.t.one[MEETS];
    let (attacks, guards) = (moves(&e, attacker), moves(&e, guardian));
    let mut ranks: Vec<u32> = (0..N).map(|a| if meets.get(a) { 0 } else { NEVER }).collect();
    let (mut won, mut lost, mut round) = (meets, meets, 0);
    loop {
        round += 1;
        let (before, after) = (won, lost);
        for a in 0..N {
            if !before.get(a) && attacks[a].and(after).any() {
                won.set(a);
                ranks[a] = round;
            }
            if guards[a].less(before).none() {
                lost.set(a);
            }
        }
        if (won, lost) == (before, after) {
            break;
        }
    }
    let empty = e.wiped.then_some((0, ranks[EMPTY]));
    let mut told: Vec<(u32, u32)> = (0..e.t.n).map(|a| (e.t.states[a], ranks[a])).chain(empty).collect();
    told.sort();
    told.into_iter().map(|(_, moves)| moves).collect()
}
