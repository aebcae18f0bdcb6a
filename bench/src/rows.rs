//! The lines of the other calls: the product's, and the same in plain Rust where that is there.

use crate::calls::{self, Ask, Call};
use crate::product::{self, Buffers};
use crate::{best, method, Table};

impl Table {
    /// A call on its text.
    pub fn call(&mut self, buffers: &mut Buffers, call: &Call) {
        match &call.ask {
            Ask::From { before, object } => self.from(buffers, call, before, *object),
            Ask::Cure(lines) => self.cure(buffers, call, lines),
            Ask::Tally(lines) => self.tally(buffers, call, lines),
            Ask::Game { attacker, guardian } => self.game(buffers, call, attacker, guardian),
            Ask::Way { from, to } => self.way(buffers, call, *from, *to),
            Ask::Yes => self.mark(buffers, call, 6, calls::handin),
            Ask::Short => self.mark(buffers, call, 8, |run| calls::handin(&run[..run.len() - 1])),
            Ask::No => self.mark(buffers, call, 7, |_| "no\n".to_string()),
        }
    }

    /// What can become of an object, with the places of the run shown.
    fn from(&mut self, buffers: &mut Buffers, call: &Call, before: &[u32], object: u32) {
        let (own, places) = best(|| buffers.from(call.bytes.as_bytes(), before, object));
        let shown = places.map_or("unreached".to_string(), |n| format!("{n} places"));
        self.line(&format!("{} ({shown})", call.name), own, [None; 2]);
    }

    /// The fewest lines that cure, with the number of searches.
    fn cure(&mut self, buffers: &mut Buffers, call: &Call, lines: &[u32]) {
        let bytes = call.bytes.as_bytes();
        let (own, cure) = best(|| buffers.cure(bytes, lines));
        let (plain, strikes) = best(|| method::strikes(&method::text::read(bytes), lines));
        assert_eq!(cure, strikes.fewest, "{}", call.name);
        self.line(&format!("{} ({} searches)", call.name, strikes.searches), own, [Some(plain), None]);
    }

    /// The number of choices that are reached, with the number of searches.
    fn tally(&mut self, buffers: &mut Buffers, call: &Call, lines: &[u32]) {
        let bytes = call.bytes.as_bytes();
        let (own, reached) = best(|| buffers.tally(bytes, lines));
        let (plain, strikes) = best(|| method::strikes(&method::text::read(bytes), lines));
        assert_eq!(reached, strikes.reached, "{}", call.name);
        self.line(&format!("{} ({} searches)", call.name, strikes.searches), own, [Some(plain), None]);
    }

    /// The game, with the most moves that the attacker needs where he can force it.
    fn game(&mut self, buffers: &mut Buffers, call: &Call, attacker: &[u32], guardian: &[u32]) {
        let bytes = call.bytes.as_bytes();
        let (own, moves) = best(|| buffers.game(bytes, attacker, guardian));
        let (plain, expected) = best(|| method::game(&method::text::read(bytes), attacker, guardian));
        assert_eq!(moves, expected, "{}", call.name);
        let most = moves.iter().filter(|&&n| n < 255).max().unwrap_or(&0);
        self.line(&format!("{} ({most} moves)", call.name), own, [Some(plain), None]);
    }

    /// The shortest way, with its steps.
    fn way(&mut self, buffers: &mut Buffers, call: &Call, from: u32, to: u32) {
        let bytes = call.bytes.as_bytes();
        let (own, steps) = best(|| buffers.way(bytes, from, to));
        let (plain, expected) = best(|| method::way(&method::text::read(bytes), from, to));
        assert_eq!(steps, expected, "{}", call.name);
        let shown = steps.map_or("no way".to_string(), |n| format!("{n} steps"));
        self.line(&format!("{} ({shown})", call.name), own, [Some(plain), None]);
    }

    /// The mark of a hand-in that is made from the run shown, with the kind that it has.
    fn mark(&mut self, buffers: &mut Buffers, call: &Call, kind: u64, write: impl Fn(&[u32]) -> String) {
        let bytes = call.bytes.as_bytes();
        let run = buffers.analyze(bytes).and_then(|a| a.run).expect("a question that is reached");
        let handin = write(&run);
        let (own, marked) = best(|| buffers.mark(bytes, handin.as_bytes()));
        assert_eq!(marked, kind, "{}", call.name);
        self.line(call.name, own, [None; 2]);
    }

    /// The writing of a text for Asbestos labels, and its analysis.
    pub fn asbestos(&mut self, buffers: &mut Buffers, name: &str) {
        let (own, text) = best(|| product::asbestos(&calls::kinds(), 4, 4));
        self.line(&format!("{name} ({} bytes)", text.len()), own, [None; 2]);
        self.text(buffers, "  analysis of it", &text);
    }
}
