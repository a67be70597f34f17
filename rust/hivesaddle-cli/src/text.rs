//! Texts from files and from the system, made fit to show.
//!
//! What is not printable is shown as an escape, `\u{1B}` for a character or a
//! lone surrogate and `\x{FF}` for a byte of a file name that is no UTF-8, so
//! that a file can't write to a terminal's controls. Not printable are controls,
//! format characters such as the marks for writing direction, blanks other than
//! the space, combining marks, and code points that mean nothing. A backslash
//! stands for itself, as paths are full of them; only where it would look like
//! the start of an escape is it one too: `\u{5C}`. So each text is shown in one
//! way, and no two texts in the same.

use std::ffi::OsStr;
use std::fmt::Write;

/// Printable, and no brace, so that no part of an escape: most texts are of these
/// alone, and are shown as they are.
pub fn is_plain(byte: u8) -> bool {
    matches!(byte, b' '..=b'z')
}

/// UTF-16, low byte first, as it stands in a file.
pub fn shown(bytes: &[u8]) -> String {
    if bytes.chunks_exact(2).all(|unit| unit[1] == 0 && is_plain(unit[0])) {
        return bytes.chunks_exact(2).map(|unit| char::from(unit[0])).collect();
    }
    let mut text = String::with_capacity(bytes.len() / 2);
    for character in char::decode_utf16(units(bytes)) {
        match character {
            Ok(character) => push_shown(&mut text, character),
            Err(lone) => push_escape(&mut text, 'u', lone.unpaired_surrogate().into()),
        }
    }
    text
}

/// The name of a file on this system.
pub fn shown_name(name: &OsStr) -> String {
    let mut text = String::new();
    for chunk in name.as_encoded_bytes().utf8_chunks() {
        chunk.valid().chars().for_each(|character| push_shown(&mut text, character));
        chunk.invalid().iter().for_each(|&byte| push_escape(&mut text, 'x', byte.into()));
    }
    text
}

/// The units of UTF-16 bytes, low byte first.
pub fn units(bytes: &[u8]) -> impl Iterator<Item = u16> + '_ {
    bytes.chunks_exact(2).map(|unit| u16::from_le_bytes([unit[0], unit[1]]))
}

/// The other way round.
pub fn utf16(text: &str) -> Vec<u8> {
    text.encode_utf16().flat_map(u16::to_le_bytes).collect()
}

fn push_shown(text: &mut String, character: char) {
    if character == '{' && (text.ends_with("\\u") || text.ends_with("\\x")) {
        let backslash = text.len() - 2;
        text.replace_range(backslash..=backslash, "\\u{5C}");
    }
    if is_printable(character) {
        text.push(character);
    } else {
        push_escape(text, 'u', character.into());
    }
}

fn is_printable(character: char) -> bool {
    match character {
        ' '..='~' => true,
        // The standard library's own opinion; it escapes what is not printable.
        _ => !character.is_ascii() && character.escape_debug().len() == 1,
    }
}

fn push_escape(text: &mut String, kind: char, code: u32) {
    // Writing to a string can't fail.
    let _ = write!(text, "\\{kind}{{{code:X}}}");
}

/// Columns that a shown text takes on a terminal: two for the wide characters of
/// East Asia and for pictures.
pub fn width(text: &str) -> usize {
    text.chars().map(|character| if is_wide(character) { 2 } else { 1 }).sum()
}

fn is_wide(character: char) -> bool {
    matches!(u32::from(character),
        0x1100..=0x115F | 0x2E80..=0x303E | 0x3041..=0xA4CF | 0xAC00..=0xD7A3
        | 0xF900..=0xFAFF | 0xFE30..=0xFE6F | 0xFF00..=0xFF60 | 0xFFE0..=0xFFE6
        | 0x1F300..=0x1F64F | 0x1F900..=0x1F9FF | 0x20000..=0x3FFFD)
}

/// As `1 file` and `2 files`.
pub fn count(number: usize, what: &str) -> String {
    format!("{number} {what}{}", if number == 1 { "" } else { "s" })
}

/// A text as a field of CSV (RFC 4180). One that a spreadsheet would take for a
/// formula, with = + - or @ at its start, gets an apostrophe before it. Numbers
/// are written as they are and not by this.
pub fn csv_field(text: &str) -> String {
    let guard = if text.starts_with(['=', '+', '-', '@']) { "'" } else { "" };
    let is_mark = |byte: u8| matches!(byte, b'"' | b',' | b'\n' | b'\r');
    if text.bytes().any(is_mark) || text.starts_with(' ') || text.ends_with(' ') {
        format!("\"{guard}{}\"", text.replace('"', "\"\""))
    } else {
        format!("{guard}{text}")
    }
}

/// A text as a string of JSON, quotes included.
pub fn json_string(text: &str) -> String {
    let is_plain = |byte: u8| matches!(byte, b' '..=b'~') && byte != b'"' && byte != b'\\';
    match text.bytes().all(is_plain) {
        true => ["\"", text, "\""].concat(),
        false => json_units(text.encode_utf16()),
    }
}

/// UTF-16 as a string of JSON, every unit as it is, lone surrogates too. What is
/// not printable stands there as its own escape, `\u001b`.
pub fn json_units(units: impl Iterator<Item = u16>) -> String {
    let mut json = String::from("\"");
    for character in char::decode_utf16(units) {
        match character {
            Ok(character @ ('"' | '\\')) => json.extend(['\\', character]),
            Ok(character) if is_printable(character) => json.push(character),
            Ok(character) => {
                let mut pair = [0; 2];
                character
                    .encode_utf16(&mut pair)
                    .iter()
                    .for_each(|&unit| push_unit(&mut json, unit));
            }
            Err(lone) => push_unit(&mut json, lone.unpaired_surrogate()),
        }
    }
    json.push('"');
    json
}

fn push_unit(json: &mut String, unit: u16) {
    // Writing to a string can't fail.
    let _ = write!(json, "\\u{unit:04x}");
}

/// A text between the tags of SVG and HTML, or inside an attribute's quotes.
pub fn xml_text(text: &str) -> String {
    let mut xml = String::with_capacity(text.len());
    for character in text.chars() {
        match character {
            '&' => xml.push_str("&amp;"),
            '<' => xml.push_str("&lt;"),
            '>' => xml.push_str("&gt;"),
            '"' => xml.push_str("&quot;"),
            '\'' => xml.push_str("&#39;"),
            other => xml.push(other),
        }
    }
    xml
}

#[cfg(test)]
mod tests {
    use super::*;

    #[test]
    fn printable_text_is_shown_as_it_is() {
        for text in ["", r"\DEVICE\A B.EXE", "ÄÖÜ \u{65E5}\u{672C}", "\u{1F600}", "'\"<>&"] {
            assert_eq!(shown(&utf16(text)), text);
            assert_eq!(shown_name(OsStr::new(text)), text);
        }
    }

    #[test]
    fn all_else_is_escaped() {
        let cases = [
            ("a\u{1B}[2Jb", r"a\u{1B}[2Jb"),
            ("\0\n\r\t\u{7F}\u{9B}", r"\u{0}\u{A}\u{D}\u{9}\u{7F}\u{9B}"),
            ("\u{202E}\u{2066}\u{200B}\u{FEFF}", r"\u{202E}\u{2066}\u{200B}\u{FEFF}"),
            ("\u{A0}\u{2028}\u{3000}", r"\u{A0}\u{2028}\u{3000}"),
            ("e\u{301}\u{E000}\u{E0041}", r"e\u{301}\u{E000}\u{E0041}"),
        ];
        for (text, expected) in cases {
            assert_eq!(shown(&utf16(text)), expected);
            assert_eq!(shown_name(OsStr::new(text)), expected);
        }
        assert_eq!(shown(b"A\0\0\xD8B\0\0\xDC"), r"A\u{D800}B\u{DC00}");
        // Half a unit at the end is none.
        assert_eq!(shown(b"A\0B"), "A");
    }

    #[test]
    fn what_looks_like_an_escape_is_one() {
        assert_eq!(shown(&utf16(r"\u{1B}\x{FF}\n\\")), r"\u{5C}u{1B}\u{5C}x{FF}\n\\");
        assert_eq!(shown(&utf16(r"\\u{1B}\u")), r"\\u{5C}u{1B}\u");
        assert_eq!(shown(&utf16("\\\u{1B}")), r"\\u{1B}");
    }

    #[cfg(unix)]
    #[test]
    fn bytes_that_are_no_text() {
        use std::os::unix::ffi::OsStrExt;
        assert_eq!(
            shown_name(OsStr::from_bytes(b"a\xFF\xC3.pf\xE2\x82")),
            r"a\x{FF}\x{C3}.pf\x{E2}\x{82}"
        );
    }

    #[test]
    fn widths() {
        assert_eq!((width(""), width("abc"), width("\u{65E5}a\u{1F600}")), (0, 3, 5));
    }

    #[test]
    fn csv() {
        let cases = [
            ("plain", "plain"),
            ("a,b", "\"a,b\""),
            ("say \"so\"", "\"say \"\"so\"\"\""),
            ("two\nlines", "\"two\nlines\""),
            (" blank", "\" blank\""),
            ("=1+1", "'=1+1"),
            ("@a,b", "\"'@a,b\""),
            ("", ""),
        ];
        for (text, expected) in cases {
            assert_eq!(csv_field(text), expected);
        }
    }

    #[test]
    fn json() {
        assert_eq!(json_string(r#"\A "b""#), r#""\\A \"b\"""#);
        assert_eq!(json_string("\u{1B}\n\u{202E}\u{E0041}"), r#""\u001b\u000a\u202e\udb40\udc41""#);
        assert_eq!(json_units([0x41, 0xD800, 0x42].into_iter()), r#""A\ud800B""#);
    }

    #[test]
    fn xml() {
        assert_eq!(xml_text("</script>&\"'"), "&lt;/script&gt;&amp;&quot;&#39;");
    }
}
