//! The levels of a question over the moves of one object, and the run shown.

use super::engine::{Engine, Head};
use super::row::Row;
use super::text::{Act, Model, Stage};

const N: usize = 128;
type R = Row<2>;
type Matrix = [R; N];

pub struct Answer {
    pub states: Vec<u32>,
    pub reached: bool,
    pub run: Vec<u32>,
    pub facts: usize,
}

/// The row of slots that a slot can become, itself included.
fn ways(e: &Engine<N, 2>) -> Matrix {
    let mut m = [R::ZERO; N];
    for a in 0..e.t.n {
        m[a].set(a);
    }
    for (i, c) in e.clauses.iter().enumerate() {
        if let Act::Next { .. } = c.act {
            let mut r = e.t.one[16 + i];
            while r.any() {
                let a = r.pop();
                if e.leads[i][a] != 255 {
                    m[a].set(e.leads[i][a] as usize);
                }
            }
        }
    }
    for k in 0..e.t.n {
        for a in 0..e.t.n {
            if m[a].get(k) {
                m[a] = m[a].or(m[k]);
            }
        }
    }
    m
}

/// How the variables of a stage are renamed so that the carried ones come first.
fn seats(s: &Stage) -> ([usize; 3], usize) {
    let mut p = [255; 3];
    let mut k = 0;
    for c in 0..2 {
        if s.seat[c] != 255 {
            p[s.seat[c]] = k;
            k += 1;
        }
    }
    let carried = k;
    for q in p.iter_mut() {
        if *q == 255 {
            *q = k;
            k += 1;
        }
    }
    (p, carried)
}

/// The entries of a level after these walkers have walked. A variable that is not chosen yet has the number 0 alone.
fn walked(l: &Matrix, walks: [bool; 2], w: &Matrix) -> Matrix {
    let mut m = *l;
    if walks[1] {
        for row in m.iter_mut() {
            let mut r = *row;
            while r.any() {
                let b = r.pop();
                *row = row.or(w[b]);
                r = r.less(w[b]);
            }
        }
    }
    if walks[0] {
        let from = m;
        for a in 0..N {
            if from[a].any() {
                let mut r = w[a];
                while r.any() {
                    let t = r.pop();
                    m[t] = m[t].or(from[a]);
                }
            }
        }
    }
    m
}

/// The shortest way from a slot to another, as lines, by breadth.
fn way(e: &Engine<N, 2>, from: usize, to: usize, out: &mut [u32; N]) -> usize {
    let mut by = [(255u8, 255u8); N];
    let mut queue = [0u8; N];
    let (mut head, mut tail) = (0, 1);
    queue[0] = from as u8;
    let mut seen = R::one(from);
    while head < tail && !seen.get(to) {
        let a = queue[head] as usize;
        head += 1;
        for (i, c) in e.clauses.iter().enumerate() {
            if let Act::Next { .. } = c.act {
                if e.t.one[16 + i].get(a) {
                    let t = e.leads[i][a] as usize;
                    if t != 255 && !seen.get(t) {
                        seen.set(t);
                        by[t] = (i as u8, a as u8);
                        queue[tail] = t as u8;
                        tail += 1;
                    }
                }
            }
        }
    }
    let mut n = 0;
    let mut a = to;
    while a != from {
        let (i, o) = by[a];
        out[n] = e.clauses[i as usize].line;
        n += 1;
        a = o as usize;
    }
    out[..n].reverse();
    n
}

/// The lines that make an object of a state, as they were found.
fn lineage(e: &Engine<N, 2>, slot: usize, out: &mut [u32; N]) -> usize {
    let mut n = 0;
    let mut a = slot;
    loop {
        let (i, o) = e.came[a];
        out[n] = e.clauses[i as usize].line;
        n += 1;
        if o == 255 {
            break;
        }
        a = o as usize;
    }
    out[..n].reverse();
    n
}

/// The answer to a question; none where more than 127 non-empty states are reachable.
pub fn analyze(m: &Model) -> Option<Answer> {
    let mut e: Box<Engine<N, 2>> = Box::new(Engine::new(m, true));
    e.saturate();
    if e.over {
        return None;
    }
    let facts: u32 = (0..16).map(|r| e.t.one[r].count()).sum::<u32>() + (0..6).map(|r| (0..e.t.n).map(|a| e.t.fwd[r][a].count()).sum::<u32>()).sum::<u32>();
    let mut order: Vec<u32> = e.t.states[..e.t.n].to_vec();
    if e.wiped {
        order.push(0);
    }
    order.sort();
    let mut ans = Answer {
        states: order,
        reached: false,
        run: Vec::new(),
        facts: facts as usize,
    };
    let w = ways(&e);
    let mut level: [Matrix; 5] = [[R::ZERO; N]; 5];
    let mut chosen = [[false; 2]; 5];
    level[0][0].set(0);
    for (i, s) in m.stages.iter().enumerate() {
        let (p, carried) = seats(s);
        let b = s.body.renamed(p);
        chosen[i + 1] = [chosen[i][0] || s.seat[0] != 255, chosen[i][1] || s.seat[1] != 255];
        let walks = [0, 1].map(|c| chosen[i][c] && s.seat[c] != 255);
        let pre = walked(&level[i], walks, &w);
        let mut next = [R::ZERO; N];
        if carried == 2 {
            e.t.fwd[6] = [R::ZERO; N];
            e.stage(&b, Head { arity: 2, rel: 6 });
            for a in 0..N {
                let h = e.t.fwd[6][a];
                next[a] = match chosen[i] {
                    [true, true] => pre[a].and(h),
                    [true, false] => {
                        if pre[a].any() {
                            h
                        } else {
                            R::ZERO
                        }
                    }
                    [false, true] => pre[0].and(h),
                    _ => {
                        if pre[0].any() {
                            h
                        } else {
                            R::ZERO
                        }
                    }
                };
            }
        } else if carried == 1 {
            let rel = 80 + i;
            e.stage(&b, Head { arity: 1, rel });
            let h = e.t.one[rel];
            for a in 0..N {
                next[a] = if s.seat[0] != 255 {
                    match (h.get(a), chosen[i][0]) {
                        (true, true) => pre[a],
                        (true, false) => pre[0],
                        _ => R::ZERO,
                    }
                } else if chosen[i][1] {
                    pre[a].and(h)
                } else if pre[a].any() {
                    h
                } else {
                    R::ZERO
                };
            }
        } else {
            let rel = 80 + i;
            e.stage(&b, Head { arity: 0, rel });
            if e.t.nul >> rel & 1 == 1 {
                next = pre;
            }
        }
        level[i + 1] = next;
    }
    let last = m.stages.len();
    let Some(a) = (0..N).find(|&a| level[last][a].any()) else { return Some(ans) };
    ans.reached = true;
    // The entries, the last first.
    let mut at = [[0usize; 2]; 5];
    at[last] = [a, level[last][a].first()];
    let mut into = [R::ZERO; N];
    for a in 0..e.t.n {
        let mut r = w[a];
        while r.any() {
            into[r.pop()].set(a);
        }
    }
    for i in (0..last).rev() {
        let from = |c: usize| match (chosen[i][c], m.stages[i].seat[c]) {
            (false, _) => R::one(0),
            (true, 255) => R::one(at[i + 1][c]),
            (true, _) => into[at[i + 1][c]],
        };
        let (mut rows, cols) = (from(0), from(1));
        while rows.any() {
            let x = rows.pop();
            let r = level[i][x].and(cols);
            if r.any() {
                at[i] = [x, r.first()];
                break;
            }
        }
    }
    // The run: one object of each state, then the walkers.
    let mut lines = [0u32; N];
    let n = e.t.n;
    for s in 0..n {
        let k = lineage(&e, s, &mut lines);
        for l in &lines[..k] {
            ans.run.push(l * 256 + s as u32);
        }
    }
    let mut walker = [255usize; 2];
    let mut made = n;
    for i in 0..last {
        let s = &m.stages[i];
        let mut rows = [e.t.all; 3];
        for c in 0..2 {
            if !chosen[i + 1][c] {
                continue;
            }
            let to = at[i + 1][c];
            let k;
            if !chosen[i][c] {
                walker[c] = made;
                made += 1;
                k = lineage(&e, to, &mut lines);
            } else {
                k = way(&e, at[i][c], to, &mut lines);
            }
            for l in &lines[..k] {
                ans.run.push(l * 256 + walker[c] as u32);
            }
            if s.seat[c] != 255 {
                rows[s.seat[c]] = R::one(to);
            }
        }
        let pick = e.t.first(&s.body, rows, &[]).expect("the stage holds");
        let mut place = 0x8000_0000u32 + (i as u32 + 1) * 0x100_0000;
        for v in 0..3 {
            let mut o = if v < s.body.vars { pick[v] } else { 255 };
            for c in 0..2 {
                if s.seat[c] == v {
                    o = walker[c];
                }
            }
            place += (o as u32) << (16 - 8 * v);
        }
        ans.run.push(place);
    }
    Some(ans)
}
