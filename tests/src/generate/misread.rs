//! Ways to take a name for numbers that are not the paper's. A stored hash
//! over such numbers must not be found.

/// Each 16-bit unit of a text as one number.
pub fn units(text: &[u8]) -> Vec<u32> {
    text.chunks_exact(2).map(|unit| u16::from_le_bytes([unit[0], unit[1]]) as u32).collect()
}

/// Each byte as a signed one, from -128 to 127, at 32 bits.
pub fn signed_bytes(text: &[u8]) -> Vec<u32> {
    text.iter().map(|&byte| byte as i8 as u32).collect()
}
