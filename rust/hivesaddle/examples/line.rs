//! Hashes a path by the bytes of its UTF-16 units, and reads a catalogue line,
//! an old one, and writes it as the new one.

use hivesaddle::{catalogue_read, catalogue_write, CATALOGUE_LINE_LENGTH};

fn main() {
    let path = r"\DEVICE\HARDDISKVOLUME1\WINDOWS\NOTEPAD.EXE";
    let text: Vec<u8> = path.encode_utf16().flat_map(u16::to_le_bytes).collect();
    println!("{path}");
    println!("  xp {:08X}", hivesaddle::hash_xp_bytes(&text));
    println!("  vista {:08X}", hivesaddle::hash_vista_bytes(&text));
    println!("  2008 {:08X}", hivesaddle::hash_2008_bytes(&text));
    let old_line = b"000094000000410000000111\n";
    let mut line = [0; CATALOGUE_LINE_LENGTH];
    match catalogue_read(old_line) {
        Ok(fields) => {
            println!("{fields:?}");
            let written = catalogue_write(fields, &mut line);
            print!("{written:?} {}", String::from_utf8_lossy(&line));
        }
        Err(refusal) => println!("refused {}", refusal.number),
    }
}
