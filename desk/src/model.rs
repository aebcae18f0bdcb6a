//! A model's text for display: its lines, and the names of its labels.

use crate::calls::{self, Clause};
use crate::text::{line_of, readable};
use crate::words::runs;

/// The text of a model.
pub struct Model {
    pub bytes: Vec<u8>,
    /// The names of the state relations, in order of declaration.
    labels: Vec<String>,
}

/// Why a word is no label set.
pub enum NoSet {
    /// It has no names, and is not written as the empty set.
    Empty,
    /// No label has this name.
    Undeclared(String),
}

impl Model {
    pub fn new(bytes: Vec<u8>) -> Model {
        let relations = (0..).map_while(|i| calls::relation(&bytes, i));
        let labels = relations.filter(|r| r.code < 32).map(|r| readable(&r.name)).collect();
        Model { bytes, labels }
    }

    pub fn line(&self, n: usize) -> &[u8] {
        line_of(&self.bytes, n)
    }

    /// The names of the labels that a state has.
    pub fn labels(&self, state: u32) -> Vec<&str> {
        (0..self.labels.len())
            .filter(|&i| state >> i & 1 == 1)
            .map(|i| self.labels[i].as_str())
            .collect()
    }

    /// A state in words.
    pub fn state(&self, state: u32) -> String {
        let labels = self.labels(state);
        if labels.is_empty() {
            runs::without_labels()
        } else {
            labels.join(" ")
        }
    }

    /// The names of all labels.
    pub fn declared(&self) -> &[String] {
        &self.labels
    }

    /// The state that a word writes: names with spaces, commas or + between them, in any order; () is the empty one.
    pub fn read_state(&self, word: &str) -> Result<u32, NoSet> {
        let inner = word.strip_prefix('(').and_then(|w| w.strip_suffix(')'));
        let names: Vec<&str> = inner.unwrap_or(word).split([' ', ',', '+']).filter(|n| !n.is_empty()).collect();
        if names.is_empty() && inner.is_none() {
            return Err(NoSet::Empty);
        }
        names.iter().try_fold(0, |state, name| {
            let label = self.labels.iter().position(|l| l == name);
            label.map(|i| state | 1 << i).ok_or_else(|| NoSet::Undeclared(name.to_string()))
        })
    }

    /// The numbers of the lines whose clauses are of these kinds.
    pub fn lines_of(&self, kinds: &[Clause]) -> Vec<usize> {
        (0..)
            .map_while(|i| calls::clause(&self.bytes, i))
            .filter(|(_, kind)| kinds.contains(kind))
            .map(|(line, _)| line)
            .collect()
    }

    /// A line with its number.
    pub fn numbered(&self, line: usize) -> String {
        runs::line_with_text(line, &readable(self.line(line)))
    }

    /// The number of the line with the question: the last one.
    pub fn question(&self) -> usize {
        self.bytes.split(|&b| b == b'\n').count() - 1
    }
}
