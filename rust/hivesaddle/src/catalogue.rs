//! The catalogue line: 26 digits and a line feed; old lines have 24.

use crate::{raw, Refusal};

/// Bytes of a catalogue line, its line feed included.
pub const CATALOGUE_LINE_LENGTH: usize = raw::HS_CATALOGUE_LINE_LENGTH;
/// Bytes of an old line, which is read and no longer written: its size has six
/// digits and not eight.
pub const CATALOGUE_OLD_LINE_LENGTH: usize = raw::HS_CATALOGUE_OLD_LINE_LENGTH;

/// What a catalogue line says of one file.
#[derive(Clone, Copy, Debug, PartialEq, Eq)]
pub struct CatalogueFields {
    /// The file's size in bytes.
    pub size: u32,
    /// The stored hash, as [`crate::Record`] has it.
    pub stored_hash: u32,
    /// The run count, as [`crate::Record`] has it.
    pub run_count: u32,
    /// 17, 23, 26 or 30.
    pub version: u32,
}

/// Reads one line, its line feed included, a new one or an old one. Anything
/// else gives refusal 18. The version is one that the readers take.
///
/// ```
/// let fields = hivesaddle::catalogue_read(b"00000094000000410000000111\n").unwrap();
/// assert_eq!(fields.size, 148);
/// assert_eq!(fields.stored_hash, 65);
/// assert_eq!(fields.run_count, 1);
/// assert_eq!(fields.version, 17);
/// // The old line of the same fields.
/// assert_eq!(hivesaddle::catalogue_read(b"000094000000410000000111\n"), Ok(fields));
/// // Version 30, from its smallest head on.
/// assert_eq!(hivesaddle::catalogue_read(b"000000D400000041000000011E\n").unwrap().version, 30);
/// assert_eq!(hivesaddle::catalogue_read(b"000000D300000041000000011E\n").unwrap_err().number, 18);
/// let refusal = hivesaddle::catalogue_read(b"no line").unwrap_err();
/// assert_eq!((refusal.number, refusal.index, refusal.offset), (18, 0, 0));
/// ```
pub fn catalogue_read(line: &[u8]) -> Result<CatalogueFields, Refusal> {
    let mut out = [0; 4];
    // SAFETY: each list is a slice with its length, and those written are borrowed as mut.
    let number =
        unsafe { raw::hs_catalogue_read(line.as_ptr(), line.len(), out.as_mut_ptr(), out.len()) };
    if number != 0 {
        return Err(Refusal::bare(number));
    }
    // Each field is a number of at most 32 bits.
    Ok(CatalogueFields {
        size: out[0] as u32,
        stored_hash: out[1] as u32,
        run_count: out[2] as u32,
        version: out[3] as u32,
    })
}

/// Writes the new line into the first 27 bytes of the output. Fields that
/// can't form a line and a shorter output give refusal 19, and nothing is
/// written.
///
/// ```
/// use hivesaddle::{catalogue_write, CatalogueFields};
/// let fields = CatalogueFields { size: 148, stored_hash: 65, run_count: 1, version: 17 };
/// let mut output = [b'.'; 28];
/// catalogue_write(fields, &mut output).unwrap();
/// assert_eq!(&output, b"00000094000000410000000111\n.");
/// assert_eq!(catalogue_write(fields, &mut output[..26]).unwrap_err().number, 19);
/// let largest = CatalogueFields { size: 67_108_864, ..fields };
/// catalogue_write(largest, &mut output).unwrap();
/// assert_eq!(&output[..8], b"04000000");
/// ```
pub fn catalogue_write(fields: CatalogueFields, output: &mut [u8]) -> Result<(), Refusal> {
    // SAFETY: each list is a slice with its length, and those written are borrowed as mut.
    let number = unsafe {
        raw::hs_catalogue_write(
            fields.size,
            fields.stored_hash,
            fields.run_count,
            fields.version,
            output.as_mut_ptr(),
            output.len(),
        )
    };
    match number {
        0 => Ok(()),
        number => Err(Refusal::bare(number)),
    }
}
