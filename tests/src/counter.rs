//! Texts whose objects count on a few labels, so that games and ways are as long as they can be.

use crate::labels::is;
use crate::random::Random;
use crate::reader::LABELS;
use crate::wide::declared;
use std::ops::Range;

pub struct Counter {
    /// The labels that count; others are declared before them.
    labels: Range<usize>,
    /// The lines before the question.
    lines: Vec<String>,
}

impl Counter {
    /// An object starts at 1; the relation `Some` has each object that is not at 0.
    pub fn new(labels: Range<usize>) -> Counter {
        let mut lines: Vec<String> = declared(labels.end).lines().map(String::from).collect();
        lines.push("(rel Some 1)".into());
        lines.extend(labels.clone().map(|i| format!("(rule (Some x) (L{i} x))")));
        lines.push(format!("(new (L{}))", labels.start));
        Counter { labels, lines }
    }

    /// Adds a line, and gives its number.
    fn line(&mut self, line: String) -> u32 {
        self.lines.push(line);
        self.lines.len() as u32
    }

    /// Adds the lines that count up by a power of two, as far as there are labels: one for each label that may be the last to change.
    pub fn adding(&mut self, exponent: usize) -> Vec<u32> {
        let low = self.labels.start + exponent;
        let line = |high: usize| format!("(next x (L{high}) ({}) (Some x){})", list(low..high), is(low..high + 1, !(1 << high)));
        (low..self.labels.end).map(|high| self.line(line(high))).collect()
    }

    /// Adds the lines that count down by a power of two, as far as 0.
    pub fn taking(&mut self, exponent: usize) -> Vec<u32> {
        let low = self.labels.start + exponent;
        let line = |high: usize| format!("(next x ({}) (L{high}) (Some x){})", list(low..high), is(low..high + 1, 1 << high));
        (low..self.labels.end).map(|high| self.line(line(high))).collect()
    }

    /// Adds the line that wipes an object at a number.
    pub fn wiping(&mut self, number: u32) -> u32 {
        self.line(format!("(next x () ({}){})", list(self.labels.clone()), self.at(number)))
    }

    /// The literals on x that say where it is.
    fn at(&self, number: u32) -> String {
        is(self.labels.clone(), number << self.labels.start)
    }

    /// The text, asked for an object at a number.
    pub fn asked(&self, number: u32) -> String {
        format!("{}\n(ask ({}))\n", self.lines.join("\n"), self.at(number).trim_start())
    }
}

/// The labels of a range, as a list has them.
fn list(range: Range<usize>) -> String {
    range.map(|i| format!("L{i}")).collect::<Vec<String>>().join(" ")
}

/// A random counter of three to five labels that counts up and down by 1, 2 and 4, and the lines for each of these.
pub fn any(r: &mut Random) -> (String, Vec<Vec<u32>>) {
    let bits = 3 + r.below(3);
    let first = r.pick(&[0, 5, LABELS - bits]);
    let mut counter = Counter::new(first..first + bits);
    let lines = (0..3).flat_map(|exponent| [counter.adding(exponent), counter.taking(exponent)]).collect();
    (counter.asked(1 + r.below((1 << bits) - 1) as u32), lines)
}
