//! Bytes as a hex editor shows them.

const ROW: usize = 16;

/// The rows of sixteen bytes that a field lies in, and carets below its bytes. A
/// byte behind the end of the file is shown as --.
pub fn marked(file: &[u8], offset: u64, length: usize) -> String {
    // No file that is read is as long as 32 bits can say.
    let Ok(offset) = u32::try_from(offset).map(|offset| offset as usize) else {
        return String::new();
    };
    let end = offset.saturating_add(length.clamp(1, ROW));
    let first = offset - offset % ROW;
    let rows = (first..end).step_by(ROW);
    rows.map(|start| format!("{}\n{}\n", row(file, start), carets(start, offset..end))).collect()
}

fn row(file: &[u8], start: usize) -> String {
    let bytes = (start..start + ROW).map(|at| file.get(at).copied());
    let hex = bytes.clone().map(|byte| byte.map_or("--".to_string(), |byte| format!("{byte:02X}")));
    let text: String = bytes.map(|byte| byte.map_or(' ', letter)).collect();
    format!("{start:08X}  {}  {}", columns(hex), text.trim_end())
}

fn carets(start: usize, field: std::ops::Range<usize>) -> String {
    let mark = |at| if field.contains(&at) { "^^" } else { "  " };
    let line =
        format!("{:8}  {}", "", columns((start..start + ROW).map(|at| mark(at).to_string())));
    line.trim_end().to_string()
}

/// Two columns of eight.
fn columns(bytes: impl Iterator<Item = String>) -> String {
    let bytes: Vec<String> = bytes.collect();
    let (left, right) = bytes.split_at(ROW / 2);
    format!("{}  {}", left.join(" "), right.join(" "))
}

fn letter(byte: u8) -> char {
    match byte {
        b' '..=b'~' => byte.into(),
        _ => '.',
    }
}

#[cfg(test)]
mod tests {
    use super::*;

    #[test]
    fn a_field_inside_a_row() {
        let file: Vec<u8> = (0x30..0x60).collect();
        let expected = "\
00000010  40 41 42 43 44 45 46 47  48 49 4A 4B 4C 4D 4E 4F  @ABCDEFGHIJKLMNO
                            ^^ ^^  ^^ ^^
";
        assert_eq!(marked(&file, 0x16, 4), expected);
    }

    #[test]
    fn a_field_in_two_rows_and_past_the_end() {
        let expected = "\
00000000  41 41 41 41 41 41 41 41  41 41 41 41 41 41 41 41  AAAAAAAAAAAAAAAA
                                                     ^^ ^^
00000010  41 -- -- -- -- -- -- --  -- -- -- -- -- -- -- --  A
          ^^ ^^
";
        assert_eq!(marked(&[0x41; 17], 14, 4), expected);
    }

    #[test]
    fn a_field_that_is_not_there() {
        let row = marked(b"SC\x1B", 12, 4);
        assert!(row.starts_with("00000000  53 43 1B -- "));
        assert!(row.contains("  SC.\n"));
        assert!(marked(b"", u32::MAX.into(), 4).starts_with("FFFFFFF0  -- -- "));
        assert_eq!(marked(b"", u64::MAX, 4), "");
    }
}
