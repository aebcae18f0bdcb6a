//! All choices of lines to strike: each is decided by a search, or settled by one that is decided.

use super::levels::analyze;
use super::text::Model;

/// How many choices are reached, the fewest lines that cure, if some do, and how many searches it took.
pub struct Strikes {
    pub reached: u32,
    pub fewest: Option<usize>,
    pub searches: usize,
}

/// What is known of each choice, which is a number with a bit for each line struck.
struct Choices<'a> {
    m: &'a Model,
    lines: &'a [u32],
    said: Vec<Option<bool>>,
    searches: usize,
}

impl Choices<'_> {
    /// Whether the question is reached with the lines of a choice struck.
    fn search(&mut self, n: usize) -> bool {
        self.searches += 1;
        let struck: Vec<u32> = (0..self.lines.len()).filter(|i| n >> i & 1 == 1).map(|i| self.lines[i]).collect();
        let mut m = self.m.clone();
        m.clauses.retain(|c| !struck.contains(&c.line));
        analyze(&m).expect("not too many states").reached
    }

    /// Decides a choice, and with it those below it if it is reached, or those above it if it is not.
    fn decide(&mut self, n: usize) -> bool {
        if let Some(reached) = self.said[n] {
            return reached;
        }
        let reached = self.search(n);
        for k in 0..self.said.len() {
            if k & n == if reached { k } else { n } {
                self.said[k] = Some(reached);
            }
        }
        reached
    }

    /// Decides a choice, unless it is settled, and goes up from it as long as the choices are reached.
    fn settle(&mut self, n: usize) {
        if self.said[n].is_some() {
            return;
        }
        self.decide(n);
        let mut top = n;
        for i in 0..self.lines.len() {
            if self.decide(top | 1 << i) {
                top |= 1 << i;
            }
        }
    }
}

/// Decides all choices of the lines, which rise: nothing struck, all struck, then by rising number.
pub fn strikes(m: &Model, lines: &[u32]) -> Strikes {
    let total = 1 << lines.len();
    let mut choices = Choices {
        m,
        lines,
        said: vec![None; total],
        searches: 0,
    };
    choices.decide(0);
    choices.decide(total - 1);
    for n in 0..total {
        choices.settle(n);
    }
    let unreached = (0..total).filter(|&n| choices.said[n] == Some(false));
    Strikes {
        reached: choices.said.iter().filter(|s| **s == Some(true)).count() as u32,
        fewest: unreached.map(|n| n.count_ones() as usize).min(),
        searches: choices.searches,
    }
}
