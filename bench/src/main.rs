//! The product against a plain implementation in Rust and a stock Datalog engine, on the same texts in one run.
//! `bench [PART ..] [-PART ..]` takes the texts whose names have one of the parts, or all without any, but for those that have one behind a `-`.

mod calls;
mod clock;
mod datalog;
mod method;
mod model;
mod product;
mod rows;
mod runs;
mod texts;

use clock::timed;
use datalog::Spelling;
use std::fs;
use std::process::{Command, Stdio};

/// A stock engine is given up after so many seconds.
const PATIENCE: u32 = 20;

/// The seconds of the best of three calls, or of one that takes long.
fn best<T>(mut call: impl FnMut() -> T) -> (f64, T) {
    let (mut least, mut value) = timed(&mut call);
    for _ in 0..2 {
        if least < 0.3 {
            let (time, again) = timed(&mut call);
            value = again;
            least = least.min(time);
        }
    }
    (least, value)
}

/// The seconds that gringo takes to ground a program, which decides it, and whether the question is reached; none if it is not there or too slow.
fn gringo(program: &str) -> Option<(f64, bool)> {
    let file = std::env::temp_dir().join(format!("bench-{}.lp", std::process::id()));
    fs::write(&file, program).expect("the program is written");
    let before = clock::children();
    let output = Command::new("timeout")
        .arg(PATIENCE.to_string())
        .args(["gringo", "--text", "-Wnone"])
        .arg(&file)
        .stderr(Stdio::null())
        .output();
    let time = clock::children() - before;
    fs::remove_file(&file).expect("the program is removed");
    let output = output.ok().filter(|o| o.status.success())?;
    let text = String::from_utf8_lossy(&output.stdout).into_owned();
    Some((
        time,
        text.lines()
            .any(|l| l == "#show reached." || l == "reached." || l.starts_with("#show reached:")),
    ))
}

/// A time in a column.
fn column(time: Option<f64>) -> String {
    time.map_or("-".to_string(), |t| {
        if t < 0.001 {
            format!("{:.1} us", t * 1e6)
        } else if t < 1.0 {
            format!("{:.1} ms", t * 1e3)
        } else {
            format!("{t:.2} s")
        }
    })
}

/// A ratio in a column.
fn ratio(other: Option<f64>, own: f64) -> String {
    other.map_or("-".to_string(), |t| format!("{:.3}", t / own))
}

/// What the lines printed so far have at the worst: the least ratio and the longest time, with what they are of.
struct Table {
    worst: (f64, String),
    slowest: (f64, String),
}

impl Table {
    /// Prints a line: what was timed, the product's time, and the others' with their ratios to it.
    fn line(&mut self, name: &str, own: f64, others: [Option<f64>; 2]) {
        println!(
            "{name:44} {:>10} {:>10} {:>8} {:>10} {:>8}",
            column(Some(own)),
            column(others[0]),
            ratio(others[0], own),
            column(others[1]),
            ratio(others[1], own)
        );
        for other in others.into_iter().flatten() {
            if other / own < self.worst.0 {
                self.worst = (other / own, name.to_string());
            }
        }
        if own > self.slowest.0 {
            self.slowest = (own, name.to_string());
        }
    }

    /// The replay of a run that is kept.
    fn replay(&mut self, buffers: &mut product::Buffers, name: &str, bytes: &[u8], run: &[u32]) {
        let (own, broken) = best(|| buffers.replay(bytes, run));
        let (plain, expected) = best(|| method::replay(&method::text::read(bytes), run));
        assert_eq!((broken, expected), (None, None), "{name}");
        self.line(name, own, [Some(plain), None]);
    }

    /// The analysis of a text, and the replay of the run shown.
    fn text(&mut self, buffers: &mut product::Buffers, name: &str, bytes: &[u8]) {
        let (own, analysis) = best(|| buffers.analyze(bytes));
        let (plain, expected) = best(|| method::analyze(&method::text::read(bytes)));
        let (Some(analysis), Some(expected)) = (&analysis, &expected) else {
            assert_eq!(analysis.is_some(), expected.is_some(), "{name}");
            return self.line(&format!("{name} (refused 15)"), own, [Some(plain), None]);
        };
        assert_eq!(analysis.states, expected.states, "{name}");
        assert_eq!(analysis.run.is_some(), expected.reached, "{name}");
        let model = model::read(bytes);
        let mut stock: Option<f64> = None;
        for spelling in [Spelling::Number, Spelling::Vector] {
            if let Some((time, reached)) = gringo(&datalog::program(&model, spelling)) {
                assert_eq!(reached, analysis.run.is_some(), "{name}");
                stock = Some(stock.map_or(time, |t| t.min(time)));
            }
        }
        self.line(&format!("{name} ({} facts)", expected.facts), own, [Some(plain), stock]);
        if let Some(run) = &analysis.run {
            self.replay(buffers, &format!("  replay of its {} places", run.len()), bytes, run);
        }
    }
}

fn main() {
    let (without, with): (Vec<String>, Vec<String>) = std::env::args().skip(1).partition(|p| p.starts_with('-'));
    let left = |name: &str| without.iter().any(|p| name.contains(&p[1..]));
    let wanted = |name: &str| !left(name) && (with.is_empty() || with.iter().any(|p| name.contains(p.as_str())));
    let mut buffers = product::Buffers::new();
    let mut table = Table {
        worst: (f64::INFINITY, String::new()),
        slowest: (0.0, String::new()),
    };
    println!("{:44} {:>10} {:>10} {:>8} {:>10} {:>8}", "", "product", "plain", "ratio", "gringo", "ratio");
    for text in texts::all().iter().filter(|t| wanted(t.name)) {
        table.text(&mut buffers, text.name, text.bytes.as_bytes());
    }
    for run in runs::all().iter().filter(|r| wanted(r.name)) {
        table.replay(&mut buffers, run.name, run.bytes.as_bytes(), &run.places);
    }
    for call in calls::all().iter().filter(|c| wanted(c.name)) {
        table.call(&mut buffers, call);
    }
    if wanted("asbestos, 18 kinds") {
        table.asbestos(&mut buffers, "asbestos, 18 kinds");
    }
    println!("worst ratio {:.3}: {}", table.worst.0, table.worst.1.trim());
    println!("slowest {}: {}", column(Some(table.slowest.0)), table.slowest.1.trim());
}
