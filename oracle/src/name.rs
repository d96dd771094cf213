//! A FILE's name as `replay` and `encode` print it (docs/PROGRAMS.md, "A name"). What
//! stands in quotes is the page's.

use std::ffi::OsStr;
use std::fmt;

/// "a name that would make the line longer than 100 bytes goes on in the next line".
const WIDEST: usize = 100;
/// "goes on in the next line, after 14 spaces".
const ASIDE: usize = 14;

/// The pieces of a name as it is printed; "what stands for one byte or one character of
/// the name is never parted".
pub struct Name {
    pieces: Vec<String>,
}

impl Name {
    /// "FILE `-` is standard input, and is named `standard input`."
    pub fn of(file: &OsStr) -> Name {
        match file.as_encoded_bytes() {
            b"-" => Name::of_bytes(b"standard input"),
            bytes => Name::of_bytes(bytes),
        }
    }

    /// "A space that is its first or its last byte is `\x20`, and a name of no byte is
    /// `''`."
    fn of_bytes(bytes: &[u8]) -> Name {
        let mut pieces = pieces(bytes);
        if let Some(first) = pieces.first_mut().filter(|first| *first == " ") {
            *first = escaped(b' ');
        }
        if let Some(last) = pieces.last_mut().filter(|last| *last == " ") {
            *last = escaped(b' ');
        }
        if pieces.is_empty() {
            pieces.push("''".to_string());
        }
        Name { pieces }
    }

    /// A line of the forms `text` and `receipt` that ends in the name; where it is too
    /// long, the name "goes on in the next line, after 14 spaces".
    pub fn line(&self, out: &mut String, before: &str) {
        out.push_str(before);
        let mut width = before.len();
        for piece in &self.pieces {
            if width + piece.len() > WIDEST {
                width = ASIDE;
                out.push_str(&format!("\n{:ASIDE$}", ""));
            }
            out.push_str(piece);
            width += piece.len();
        }
        out.push('\n');
    }
}

impl fmt::Display for Name {
    /// The whole name, on one line.
    fn fmt(&self, f: &mut fmt::Formatter<'_>) -> fmt::Result {
        f.write_str(&self.pieces.concat())
    }
}

/// "`\xNN`, two hexadecimal digits in lower case".
fn escaped(byte: u8) -> String {
    format!("\\x{byte:02x}")
}

/// "`\\` for a backslash and `\xNN` ... for each byte that is below 32 or 127, or that is
/// no part of a well-formed UTF-8 character, or is part of one from U+0080 to U+009F,
/// U+2028 to U+202E or U+2066 to U+2069". The first of these, and the bytes, are those
/// of `char::is_control`.
fn is_escaped(character: char) -> bool {
    character.is_control() || matches!(character, '\u{2028}'..='\u{202e}' | '\u{2066}'..='\u{2069}')
}

fn pieces(bytes: &[u8]) -> Vec<String> {
    let mut pieces = Vec::new();
    for chunk in bytes.utf8_chunks() {
        for character in chunk.valid().chars() {
            match character {
                '\\' => pieces.push("\\\\".to_string()),
                _ if is_escaped(character) => {
                    let mut bytes = [0; 4];
                    let bytes = character.encode_utf8(&mut bytes).bytes();
                    pieces.extend(bytes.map(escaped));
                }
                _ => pieces.push(character.to_string()),
            }
        }
        pieces.extend(chunk.invalid().iter().copied().map(escaped));
    }
    pieces
}

#[cfg(test)]
mod tests {
    use super::*;

    fn printed(bytes: &[u8]) -> String {
        Name::of_bytes(bytes).to_string()
    }

    #[test]
    fn names() {
        for (bytes, due) in [
            (&b"a b.ptr"[..], "a b.ptr"),
            (b"a\\x20", "a\\\\x20"),
            (b"\x00\t\n\x1f ~\x7f", "\\x00\\x09\\x0a\\x1f ~\\x7f"),
            (b"", "''"),
            (b" ", "\\x20"),
            (b"  ", "\\x20\\x20"),
            (b"   ", "\\x20 \\x20"),
            (b" a ", "\\x20a\\x20"),
            (b"-", "-"),
        ] {
            assert_eq!(printed(bytes), due, "{bytes:?}");
        }
    }

    #[test]
    fn characters() {
        for (bytes, due) in [
            ("é€😀\u{a0}\u{feff}".as_bytes(), "é€😀\u{a0}\u{feff}"),
            ("\u{80}\u{9f}".as_bytes(), "\\xc2\\x80\\xc2\\x9f"),
            ("\u{2027}\u{2028}".as_bytes(), "\u{2027}\\xe2\\x80\\xa8"),
            ("\u{202e}\u{202f}".as_bytes(), "\\xe2\\x80\\xae\u{202f}"),
            ("\u{2065}\u{2066}".as_bytes(), "\u{2065}\\xe2\\x81\\xa6"),
            ("\u{2069}\u{206a}".as_bytes(), "\\xe2\\x81\\xa9\u{206a}"),
            (b"\xffa\xe2\x82", "\\xffa\\xe2\\x82"),
            (b"\xc0\xaf\xe0\x80\x80", "\\xc0\\xaf\\xe0\\x80\\x80"),
            (b"\xed\xa0\x80\xed\x9f\xbf", "\\xed\\xa0\\x80\u{d7ff}"),
            (b"\xf4\x90\x80\x80", "\\xf4\\x90\\x80\\x80"),
            (b"\xf4\x8f\xbf\xbf", "\u{10ffff}"),
            (b"\xc3\xc3\xa9", "\\xc3é"),
        ] {
            assert_eq!(printed(bytes), due, "{bytes:?}");
        }
    }

    #[test]
    fn standard_input() {
        assert_eq!(Name::of(OsStr::new("-")).to_string(), "standard input");
        assert_eq!(Name::of(OsStr::new("./-")).to_string(), "./-");
    }

    fn line(bytes: &[u8], before: &str) -> String {
        let mut out = String::new();
        Name::of_bytes(bytes).line(&mut out, before);
        out
    }

    #[test]
    fn wrapped() {
        let fits = "n".repeat(94);
        assert_eq!(line(fits.as_bytes(), "Trace "), format!("Trace {fits}\n"));
        let over = format!("{fits}o");
        let due = format!("Trace {fits}\n              o\n");
        assert_eq!(line(over.as_bytes(), "Trace "), due);
        let lines = line(&[b'n'; 94 + 86 * 2], "Trace ");
        assert_eq!(lines.lines().count(), 3);
    }

    #[test]
    fn never_parted() {
        let start = "n".repeat(92);
        for (end, due) in [("\\", "\\\\"), ("é", "é")] {
            let name = format!("{start}{end}o");
            let due = format!("Trace {start}{due}\n              o\n");
            assert_eq!(line(name.as_bytes(), "Trace "), due);
        }
        for (end, due) in [("\n", "\\x0a"), ("€", "€")] {
            let name = format!("{start}{end}o");
            let due = format!("Trace {start}\n              {due}o\n");
            assert_eq!(line(name.as_bytes(), "Trace "), due);
        }
        let name = format!("{}\u{80}", &start[..90]);
        let due = format!("Trace {}\\xc2\n              \\x80\n", &start[..90]);
        assert_eq!(line(name.as_bytes(), "Trace "), due);
    }
}
