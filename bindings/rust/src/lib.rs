//! A proved reader for tunes in ABC notation: `parse_abc` of acorde, ported to Rattle and proved to give, for every text, the reading that its
//! definition gives. This crate is the safe door to it from Rust.
//!
//! ```
//! let reading = sindvaelo::read("X:1\nL:1/8\nK:G\nFA (3GAB|c2 z2|]\nw: one two-three\n")?;
//! for part in &reading {
//!     assert_eq!(part.measures().len(), 2);
//!     assert_eq!(part.notes().filter(|note| !note.is_rest()).count(), 6);
//!     assert_eq!(part.lyrics().len(), 3);
//! }
//! # Ok::<(), sindvaelo::Refusal>(())
//! ```
//!
//! A reading tells as well which measures a player walks, repeats and endings followed:
//!
//! ```
//! let reading = sindvaelo::read("K:C\n|:A|[1B:|[2c|]")?;
//! for part in &reading {
//!     assert_eq!(part.played(1_000)?, [1, 2, 1, 3]);
//! }
//! # Ok::<(), sindvaelo::Refusal>(())
//! ```
//!
//! A text is read in one of two [editions](Edition): the first is acorde's reading; the second is ABC 2.1's in keys, tuplets, slashes and lyrics.
//!
//! ```
//! use sindvaelo::{Edition, read, read_edition};
//!
//! let fifths = |reading: &sindvaelo::Reading<Vec<u8>>| reading.parts().next()?.measures().next()?.key_sig().map(|key| key.fifths);
//! assert_eq!(fifths(&read("K:Ador\nF")?), Some(0));
//! assert_eq!(fifths(&read_edition("K:Ador\nF", Edition::Abc21)?), Some(1));
//!
//! let value = |reading: &sindvaelo::Reading<Vec<u8>>| Some(reading.parts().next()?.notes().next()?.duration());
//! assert_eq!(value(&read("K:C\nA//")?), Some(sindvaelo::Duration::Sixteenth));
//! assert_eq!(value(&read_edition("K:C\nA//", Edition::Abc21)?), Some(sindvaelo::Duration::ThirtySecond));
//! # Ok::<(), sindvaelo::Refusal>(())
//! ```
//!
//! Names, fields and their order stand beside acorde's: docs/SWITCHING.md.
//!
//! # Memory
//!
//! A text of n bytes is read with a scratch store of 32 × (n + 256) bytes and a reading store of 12 × n + 1,024, or, where the reading is
//! longer, in a second try of 23 × n, which is never too short: 44 bytes for each byte of text, 55 at most. A text that is refused for its length, its bytes or because it is blank takes
//! nothing. What [`read`] answers keeps the reading alone. A [`Reader`] has a limit for texts and gives its stores back on request.
#![deny(missing_docs)]

mod reader;
mod reading;
mod refusal;

pub use reader::Reader;
pub use reading::*;
pub use refusal::Refusal;

mod ffi {
    unsafe extern "C" {
        /// include/abc.h. A slice passes as a pointer and a length.
        pub fn abc_parse(text: *const u8, text_len: usize, reading: *mut u8, reading_len: usize, scratch: *mut u8, scratch_len: usize) -> u64;

        pub fn abc_parse_2_1(text: *const u8, text_len: usize, reading: *mut u8, reading_len: usize, scratch: *mut u8, scratch_len: usize) -> u64;

        pub fn abc_played(reading: *const u8, reading_len: usize, part: u32, list: *mut u8, list_len: usize) -> u64;

        pub fn abc_is_whole(reading: *const u8, reading_len: usize) -> bool;

        #[cfg(abc_version)]
        pub fn abc_version() -> u64;
    }
}

/// How a text is read. Every call that does not name an edition reads the first.
#[derive(Debug, Clone, Copy, PartialEq, Eq, Hash, Default)]
pub enum Edition {
    /// As acorde reads it.
    #[default]
    First,
    /// As the first, but by ABC 2.1 in this: the header's key holds for every voice; modes are read; tuplets of 5 to 9 have its defaults, and so has an empty part behind a `:`; slashes in a row
    /// halve a length once each, so that `A//` is a quarter of the unit; grace notes take no syllable; a `|` in a lyric line goes on to the next measure. A key of more than seven sharps or flats is refused (21), and so
    /// are more than 31 slashes that halve (22).
    Abc21,
}

/// The crate's version, as in `0.6.0`.
pub const VERSION: &str = env!("CARGO_PKG_VERSION");

/// The commit that this crate and its library were built from, for a quote to bear: `-dirty` behind it where sources differed from that commit, `-stale`
/// where the library was older than its sources, `unknown` where there was no git.
pub const COMMIT: &str = env!("SINDVAELO_COMMIT");

/// The identity of the toolchain that was there when this crate was built (`rt version`), or `unknown`.
pub const KIT: &str = env!("SINDVAELO_KIT");

/// The version that the linked library answers, in the header's form (`ABC_VERSION`: 1,000,000 × major + 1,000 × minor + patch); none if it is older than
/// that call.
pub fn library_version() -> Option<u64> {
    #[cfg(abc_version)]
    // It takes nothing and answers a number.
    return Some(unsafe { ffi::abc_version() });
    #[cfg(not(abc_version))]
    None
}

/// The most bytes of a text; a longer one is refused.
pub const MOST_BYTES: usize = 67_108_864;

/// A reading store of this length is never too short for a text of `n` bytes (proved: `never-16`).
pub const fn reading_bytes(n: usize) -> usize {
    n.saturating_mul(23)
}

/// A scratch store for a text of `n` bytes has to have this length.
pub const fn scratch_bytes(n: usize) -> usize {
    n.saturating_add(256).saturating_mul(32)
}

/// Reads a text into lent stores of any length and answers as C's `abc_parse` does: how long the reading is, or why there is none.
///
/// Afterwards scratch is all zeros, and the reading store holds the reading and then zeros, or, after a refusal, zeros.
///
/// ```
/// use sindvaelo::{Refusal, parse_abc, scratch_bytes};
///
/// let text = b"K:C\nA";
/// let (mut reading, mut scratch) = ([0; 100], vec![0; scratch_bytes(text.len())]);
/// assert_eq!(parse_abc(text, &mut reading, &mut scratch), Ok(4 + 20 + 28 + 12 + 5));
/// assert_eq!(parse_abc(text, &mut [], &mut scratch), Err(Refusal::ReadingShort));
/// ```
pub fn parse_abc(text: impl AsRef<[u8]>, reading: &mut [u8], scratch: &mut [u8]) -> Result<usize, Refusal> {
    parse_abc_edition(text, reading, scratch, Edition::First)
}

/// [`parse_abc`] in either edition; the second is C's `abc_parse_2_1`.
pub fn parse_abc_edition(text: impl AsRef<[u8]>, reading: &mut [u8], scratch: &mut [u8], edition: Edition) -> Result<usize, Refusal> {
    let text = text.as_ref();
    let parse = match edition {
        Edition::First => ffi::abc_parse,
        Edition::Abc21 => ffi::abc_parse_2_1,
    };
    // The contract of both asks nothing of lengths and contents; slices of Rust are valid, and mutable ones overlap nothing.
    unpacked(unsafe { parse(text.as_ptr(), text.len(), reading.as_mut_ptr(), reading.len(), scratch.as_mut_ptr(), scratch.len()) })
}

/// An answer of the library: a length in bytes, or a refusal's number and line.
fn unpacked(answer: u64) -> Result<usize, Refusal> {
    if answer >> 63 == 0 {
        return Ok(answer as usize);
    }
    Err(Refusal::of((answer >> 32) as u8, answer as u32))
}

/// Lists the measures of a part of a whole reading as they are played, into a lent store of any length, and answers as C's `abc_played` does: how long the list is, or why there is
/// none. [`Part::played`] makes the store.
///
/// Parts are numbered from 1, and so are the measures in the list. Afterwards the store holds the count of numbers and the numbers, four bytes each with the lowest first, and then zeros, or,
/// after a refusal, zeros. Refused are bytes that are no whole reading or have no such part ([`Refusal::NoSuchPart`]), and then a store shorter than [`list_bytes`] of
/// the count ([`Refusal::ListShort`]).
///
/// ```
/// use sindvaelo::{Refusal, list_bytes, played_measures};
///
/// let reading = sindvaelo::read("K:C\n|:A|[1B:|[2c|]")?.into_bytes();
/// let mut list = [0; list_bytes(5)];
/// assert_eq!(played_measures(&reading, 1, &mut list), Ok(list_bytes(4)));
/// assert_eq!(list.map(u32::from), [4, 0, 0, 0, 1, 0, 0, 0, 2, 0, 0, 0, 1, 0, 0, 0, 3, 0, 0, 0, 0, 0, 0, 0]);
/// assert_eq!(played_measures(&reading, 2, &mut list), Err(Refusal::NoSuchPart));
/// assert_eq!(played_measures(&reading, 1, &mut list[..list_bytes(3)]), Err(Refusal::ListShort));
/// # Ok::<(), Refusal>(())
/// ```
pub fn played_measures(reading: &[u8], part: u32, list: &mut [u8]) -> Result<usize, Refusal> {
    // The contract of abc_played asks nothing of lengths and contents; slices of Rust are valid, and the mutable one overlaps nothing.
    unpacked(unsafe { ffi::abc_played(reading.as_ptr(), reading.len(), part, list.as_mut_ptr(), list.len()) })
}

/// How long a list of `count` measures is in bytes.
pub const fn list_bytes(count: usize) -> usize {
    count.saturating_mul(4).saturating_add(4)
}

/// Whether bytes are a whole reading, by the proved test of the library: sections as long as their counts say and zeros behind them, counts that add up, codes in their ranges, lyrics on notes of their
/// part, every ending that begins ended before the next. Lyric texts may be any bytes, and no text need have this reading.
///
/// Every reading that [`parse_abc`] leaves in a store is whole there.
///
/// ```
/// use sindvaelo::{is_whole, parse_abc, scratch_bytes};
///
/// let (mut store, mut scratch) = ([0; 100], vec![0; scratch_bytes(5)]);
/// let length = parse_abc("K:C\nA", &mut store, &mut scratch)?;
/// assert!(is_whole(&store) && is_whole(&store[..length]));
/// assert!(!is_whole(&store[..length - 1]));
/// # Ok::<(), sindvaelo::Refusal>(())
/// ```
pub fn is_whole(reading: &[u8]) -> bool {
    // As for abc_played.
    unsafe { ffi::abc_is_whole(reading.as_ptr(), reading.len()) }
}

/// Reads a text into lent stores; the answer looks into the reading store.
///
/// ```
/// use sindvaelo::{read_into, reading_bytes, scratch_bytes};
///
/// let text = "K:C\nABc|";
/// let mut store = vec![0; reading_bytes(text.len())];
/// let parts = read_into(text, &mut store, &mut vec![0; scratch_bytes(text.len())]).unwrap().into_parts();
/// // The handle is gone; the parts look into the store.
/// assert_eq!(parts.map(|part| part.notes().len()).sum::<usize>(), 3);
/// ```
pub fn read_into<'a>(text: impl AsRef<[u8]>, reading: &'a mut [u8], scratch: &mut [u8]) -> Result<Reading<&'a [u8]>, Refusal> {
    read_into_edition(text, reading, scratch, Edition::First)
}

/// [`read_into`] in either edition.
pub fn read_into_edition<'a>(text: impl AsRef<[u8]>, reading: &'a mut [u8], scratch: &mut [u8], edition: Edition) -> Result<Reading<&'a [u8]>, Refusal> {
    let length = parse_abc_edition(text, reading, scratch, edition)?;
    Ok(Reading::trusted(&reading[..length]))
}

/// Reads a text. The stores are made for the call; a [`Reader`] keeps them and has a limit.
///
/// ```
/// let refusal = sindvaelo::read("K:C\nA\nX:2\n").unwrap_err();
/// assert_eq!((refusal.number(), refusal.line()), (7, Some(3)));
/// assert_eq!(refusal.to_string(), "refused (7) at line 3: an X: line after the first K: line. Send one tune in a text");
/// ```
pub fn read(text: impl AsRef<[u8]>) -> Result<Reading<Vec<u8>>, Refusal> {
    read_edition(text, Edition::First)
}

/// [`read`] in either edition.
///
/// ```
/// use sindvaelo::{Edition, Refusal, read_edition};
///
/// assert_eq!(read_edition("K:C\nA[K:G#]", Edition::Abc21), Err(Refusal::KeyBeyond { line: 2 }));
/// assert!(read_edition("K:C\nA[K:G#]", Edition::First).is_ok());
/// ```
pub fn read_edition(text: impl AsRef<[u8]>, edition: Edition) -> Result<Reading<Vec<u8>>, Refusal> {
    Reader::with_edition(edition).read_owned(text.as_ref())
}
