//! What is said, part by part: the same parts make a plain text and a page.

/// A part of what is said.
pub enum Part {
    /// A sentence or more.
    Says(String),
    /// A line of a file.
    Quote(String),
    /// A line of the model, with its number.
    Line(usize, String),
    /// Items, one a line.
    List(Vec<String>),
}

/// The parts as a plain text.
pub fn plain(parts: &[Part]) -> String {
    parts.iter().map(one).collect()
}

fn one(part: &Part) -> String {
    match part {
        Part::Says(sentence) => format!("{sentence}\n"),
        Part::Quote(text) | Part::Line(_, text) => format!("  {text}\n"),
        Part::List(items) => items.iter().map(|i| format!("  {i}\n")).collect(),
    }
}
