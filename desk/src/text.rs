//! Texts as a reader may see them: short enough, on one line, and without signs that move a terminal's cursor.

/// The most letters of a line of a file that are shown, and of a name or message: a path has at most 4,096.
const LONGEST: usize = 240;
const LONGEST_NAME: usize = 4_500;
const CUT: &str = " ..";

/// Bytes as a reader may see them: what is no plain letter, digit or sign is shown by its number.
pub fn readable(bytes: &[u8]) -> String {
    let mut shown = String::new();
    for &b in bytes.iter().take(LONGEST) {
        if b == b' ' || b.is_ascii_graphic() {
            shown.push(b as char);
        } else {
            shown.push_str(&format!("\\x{b:02x}"));
        }
    }
    if bytes.len() > LONGEST {
        shown.push_str(CUT);
    }
    shown
}

/// A name or a message: letters of every language stay, and control characters are shown by their numbers.
pub fn shown(text: &str) -> String {
    let letter = |c: char| {
        if c.is_control() {
            format!("\\x{:02x}", u32::from(c))
        } else {
            c.to_string()
        }
    };
    let mut shown: String = text.chars().take(LONGEST_NAME).map(letter).collect();
    if text.chars().count() > LONGEST_NAME {
        shown.push_str(CUT);
    }
    shown
}

/// Line n of a text, from 1.
pub fn line_of(bytes: &[u8], n: usize) -> &[u8] {
    n.checked_sub(1).and_then(|i| bytes.split(|&b| b == b'\n').nth(i)).unwrap_or(&[])
}

/// A text, or what stands for it where there is none.
pub fn or(text: String, otherwise: String) -> String {
    if text.is_empty() {
        otherwise
    } else {
        text
    }
}

/// A sentence that begins with a capital letter.
pub fn capital(sentence: &str) -> String {
    let mut letters = sentence.chars();
    letters.next().map_or(String::new(), |c| c.to_uppercase().chain(letters).collect())
}
