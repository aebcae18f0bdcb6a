//! The parts of a page. Every text is escaped here, and nowhere else.

use crate::parts::Part;
use crate::words::page;

const STYLE: &str = include_str!("page.css");

/// A text in which nothing is markup.
pub fn escaped(text: &str) -> String {
    let mut out = String::new();
    for c in text.chars() {
        match c {
            '&' => out.push_str("&amp;"),
            '<' => out.push_str("&lt;"),
            '>' => out.push_str("&gt;"),
            '"' => out.push_str("&quot;"),
            '\'' => out.push_str("&#39;"),
            c => out.push(c),
        }
    }
    out
}

/// The place of a model's line on the page.
fn anchor(line: usize) -> String {
    format!("line-{line}")
}

/// A link to a line of the model.
pub fn link(line: usize, text: &str) -> String {
    format!("<a href=\"#{}\">{}</a>", anchor(line), escaped(text))
}

/// The parts of what is said; a line of the model links to its place.
pub fn parts(parts: &[Part]) -> String {
    parts.iter().map(part).collect()
}

fn part(part: &Part) -> String {
    match part {
        Part::Says(sentence) => format!("<p>{}</p>\n", escaped(sentence)),
        Part::Quote(text) => format!("<p class=\"quote\"><code>{}</code></p>\n", escaped(text)),
        Part::Line(line, text) => format!("<p class=\"quote\"><code>{}</code></p>\n", link(*line, text)),
        Part::List(items) => list(items),
    }
}

pub fn list(items: &[String]) -> String {
    let items: String = items.iter().map(|i| format!("<li>{}</li>\n", escaped(i))).collect();
    format!("<ul>\n{items}</ul>\n")
}

/// A section with its heading; what is in it is markup already.
pub fn section(heading: &str, inner: &str) -> String {
    format!("<section>\n<h2>{}</h2>\n{inner}</section>\n", escaped(heading))
}

/// A table whose heads name its columns; its rows are markup already.
pub fn table(class: &str, caption: &str, heads: &[String], rows: &str) -> String {
    let caption = escaped(caption);
    let heads: String = heads.iter().map(|h| format!("<th scope=\"col\">{}</th>", escaped(h))).collect();
    format!(
        "<div class=\"wide\" role=\"region\" aria-label=\"{caption}\" tabindex=\"0\">
<table class=\"{class}\">
<caption>{caption}</caption>
<thead>
<tr>{heads}</tr>
</thead>
<tbody>
{rows}</tbody>
</table>
</div>
"
    )
}

/// The lines of a model, each at its anchor.
pub fn model(caption: &str, lines: &[String]) -> String {
    let row = |(i, text): (usize, &String)| {
        let line = i + 1;
        format!(
            "<tr id=\"{}\"><th scope=\"row\">{line}</th><td><code>{}</code></td></tr>\n",
            anchor(line),
            escaped(text)
        )
    };
    let rows: String = lines.iter().enumerate().map(row).collect();
    table("model", caption, &[page::head_number(), page::head_text()], &rows)
}

/// A whole page; its body is markup already.
pub fn page(title: &str, body: &str) -> String {
    let (lang, title) = (page::lang(), escaped(title));
    format!(
        "<!DOCTYPE html>
<html lang=\"{lang}\">
<head>
<meta charset=\"utf-8\">
<meta name=\"viewport\" content=\"width=device-width, initial-scale=1\">
<meta http-equiv=\"Content-Security-Policy\" content=\"default-src 'none'; style-src 'unsafe-inline'\">
<title>{title}</title>
<style>
{STYLE}</style>
</head>
<body>
<main>
<h1>{title}</h1>
{body}</main>
</body>
</html>
"
    )
}
