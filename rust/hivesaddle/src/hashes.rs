//! The three path hashes, and a second engine for the last two, over a list of
//! numbers and over the bytes of a text.

use crate::{raw, Refusal};

/// The hash of Windows XP and 2003.
///
/// ```
/// assert_eq!(hivesaddle::hash_xp(&[]), 0);
/// assert_eq!(hivesaddle::hash_xp(&[65]), 54483988);
/// ```
#[inline]
pub fn hash_xp(numbers: &[u32]) -> u32 {
    // SAFETY: the list is a slice with its length.
    unsafe { raw::hs_hash_xp(numbers.as_ptr(), numbers.len()) }
}

/// The hash of Windows Vista.
///
/// ```
/// assert_eq!(hivesaddle::hash_vista(&[]), 314159);
/// assert_eq!(hivesaddle::hash_vista(&[65, 66]), 430086142);
/// ```
#[inline]
pub fn hash_vista(numbers: &[u32]) -> u32 {
    // SAFETY: the list is a slice with its length.
    unsafe { raw::hs_hash_vista(numbers.as_ptr(), numbers.len()) }
}

/// The hash of Windows 2008, 7, 8 and 8.1.
///
/// ```
/// assert_eq!(hivesaddle::hash_2008(&[65]), 11623948);
/// ```
#[inline]
pub fn hash_2008(numbers: &[u32]) -> u32 {
    // SAFETY: the list is a slice with its length.
    unsafe { raw::hs_hash_2008(numbers.as_ptr(), numbers.len()) }
}

/// [`hash_xp`] over the bytes of a text. A byte counts as a number from 0 to
/// 255, and every byte counts. The hash of a path is that of its UTF-16
/// units, low byte first.
///
/// ```
/// let path = r"\DEVICE\HARDDISKVOLUME1\WINDOWS\NOTEPAD.EXE";
/// let text: Vec<u8> = path.encode_utf16().flat_map(u16::to_le_bytes).collect();
/// assert_eq!(hivesaddle::hash_xp_bytes(&text), 0x189578DA);
///
/// assert_eq!(hivesaddle::hash_xp_bytes(b"A\0"), 361202151);
/// // With E9 read as a signed byte this would be 61565560.
/// assert_eq!(hivesaddle::hash_xp_bytes(b"\xE9\0"), 757305720);
/// // An odd number of bytes is fine.
/// assert_eq!(hivesaddle::hash_xp_bytes(b"A"), hivesaddle::hash_xp(&[65]));
/// ```
#[inline]
pub fn hash_xp_bytes(text: &[u8]) -> u32 {
    // SAFETY: the list is a slice with its length.
    unsafe { raw::hs_hash_xp_bytes(text.as_ptr(), text.len()) }
}

/// [`hash_vista`] over the bytes of a text, as [`hash_xp_bytes`] takes them.
///
/// ```
/// assert_eq!(hivesaddle::hash_vista_bytes(b"A\0"), 430086076);
/// // With E9 read as a signed byte this would be 430082820.
/// assert_eq!(hivesaddle::hash_vista_bytes(b"\xE9\0"), 430092292);
/// ```
#[inline]
pub fn hash_vista_bytes(text: &[u8]) -> u32 {
    // SAFETY: the list is a slice with its length.
    unsafe { raw::hs_hash_vista_bytes(text.as_ptr(), text.len()) }
}

/// [`hash_2008`] over the bytes of a text, as [`hash_xp_bytes`] takes them.
///
/// ```
/// assert_eq!(hivesaddle::hash_2008_bytes(b"A\0"), 430086076);
/// ```
#[inline]
pub fn hash_2008_bytes(text: &[u8]) -> u32 {
    // SAFETY: the list is a slice with its length.
    unsafe { raw::hs_hash_2008_bytes(text.as_ptr(), text.len()) }
}

/// [`hash_vista`] by a second engine, for many paths: it adds up each number
/// times its power of 37, from a table of 1,024 powers. Past 1,024 numbers it
/// takes the plain step. A list of some ten numbers takes as long by
/// [`hash_vista`].
///
/// ```
/// assert_eq!(hivesaddle::hash_powers(&[]), 314159);
/// assert_eq!(hivesaddle::hash_powers(&[65, 66]), 430086142);
/// let long: Vec<u32> = (0..2_000).collect();
/// assert_eq!(hivesaddle::hash_powers(&long), hivesaddle::hash_vista(&long));
/// ```
#[inline]
pub fn hash_powers(numbers: &[u32]) -> u32 {
    // SAFETY: the list is a slice with its length.
    unsafe { raw::hs_hash_powers(numbers.as_ptr(), numbers.len()) }
}

/// [`hash_powers`] over the bytes of a text, as [`hash_xp_bytes`] takes them.
///
/// ```
/// assert_eq!(hivesaddle::hash_powers_bytes(b"A\0"), 430086076);
/// assert_eq!(hivesaddle::hash_powers_bytes(b"\xE9\0"), 430092292);
/// ```
#[inline]
pub fn hash_powers_bytes(text: &[u8]) -> u32 {
    // SAFETY: the list is a slice with its length.
    unsafe { raw::hs_hash_powers_bytes(text.as_ptr(), text.len()) }
}

/// Swaps the first p numbers of the old list for another start. Where the old
/// hash is [`hash_vista`] of the old list, the answer is that of the start
/// followed by the numbers kept, which are not looked at. Any other old hash
/// is taken as it is: the answer is the old hash plus (hash of the start less
/// hash of the first p numbers) times 37 raised to the count of numbers kept,
/// mod 2 to the 32.
///
/// Refusal 25 where p exceeds the length of the old list.
///
/// ```
/// use hivesaddle::{hash_swap, hash_vista};
/// let old = [65, 66, 67];
/// let joined = hash_vista(&[7, 8, 9, 67]);
/// assert_eq!(hash_swap(hash_vista(&old), &old, 2, &[7, 8, 9]), Ok(joined));
/// let refusal = hash_swap(hash_vista(&old), &old, 4, &[]).unwrap_err();
/// assert_eq!((refusal.number, refusal.index, refusal.offset), (25, 0, 0));
/// ```
#[inline]
pub fn hash_swap(old_hash: u32, old: &[u32], p: u64, start: &[u32]) -> Result<u32, Refusal> {
    let mut out = [0];
    // SAFETY: each list is a slice with its length, and those written are borrowed as mut.
    let number = unsafe {
        raw::hs_hash_swap(
            old_hash,
            old.as_ptr(),
            old.len(),
            p,
            start.as_ptr(),
            start.len(),
            out.as_mut_ptr(),
            out.len(),
        )
    };
    swapped(number, out)
}

/// [`hash_swap`] over the bytes of two texts, as [`hash_xp_bytes`] takes them;
/// p counts bytes.
///
/// ```
/// use hivesaddle::hash_swap_bytes;
/// let bytes = |text: &str| -> Vec<u8> { text.encode_utf16().flat_map(u16::to_le_bytes).collect() };
/// let old = bytes(r"\DEVICE\HARDDISKVOLUME1\WINDOWS\NOTEPAD.EXE");
/// let volume = bytes(r"\DEVICE\HARDDISKVOLUME2");
/// assert_eq!(hash_swap_bytes(0x3D2AFDB4, &old, 46, &volume), Ok(0x86E0E9B9));
/// assert_eq!(hash_swap_bytes(0x3D2AFDB4, &old, 87, &volume).unwrap_err().number, 25);
/// ```
#[inline]
pub fn hash_swap_bytes(old_hash: u32, old: &[u8], p: u64, start: &[u8]) -> Result<u32, Refusal> {
    let mut out = [0];
    // SAFETY: each list is a slice with its length, and those written are borrowed as mut.
    let number = unsafe {
        raw::hs_hash_swap_bytes(
            old_hash,
            old.as_ptr(),
            old.len(),
            p,
            start.as_ptr(),
            start.len(),
            out.as_mut_ptr(),
            out.len(),
        )
    };
    swapped(number, out)
}

fn swapped(number: u32, out: [u64; 1]) -> Result<u32, Refusal> {
    match number {
        0 => Ok(out[0] as u32),
        number => Err(Refusal::bare(number)),
    }
}
