//! Why a text is not read, or a part not listed.
use std::fmt;

/// A refusal; `line` counts from 1. `Display` says what the sender of the tune, or for 15, 16, 19 and 20 the calling program, can do.
#[derive(Debug, Clone, Copy, PartialEq, Eq, Hash)]
#[non_exhaustive]
pub enum Refusal {
    /// 1: a blank text, or no measure at its end.
    NoMusic,
    /// 2: over [`MOST_BYTES`](crate::MOST_BYTES).
    TooLong,
    /// 3: not UTF-8.
    NotUtf8,
    /// 4: a line after the 10,000th.
    TooManyLines {
        /// The line, from 1.
        line: u32,
    },
    /// 5: a line over 1,048,576 bytes once cut and trimmed.
    LineTooLong {
        /// The line, from 1.
        line: u32,
    },
    /// 6: a byte above 127 in a K, L, M or V line or in music.
    NotAscii {
        /// The line, from 1.
        line: u32,
    },
    /// 7: an X: line after the first K: line.
    SecondTune {
        /// The line, from 1.
        line: u32,
    },
    /// 8: V: without an identifier.
    NoVoiceIdentifier {
        /// The line, from 1.
        line: u32,
    },
    /// 9: a 33rd voice; unnamed opening music counts as one.
    TooManyVoices {
        /// The line, from 1.
        line: u32,
    },
    /// 10: a `middle=` word in a K or V field.
    Middle {
        /// The line, from 1.
        line: u32,
    },
    /// 11: the 100,001st note, rest or non-empty chord.
    TooManyNotes {
        /// The line, from 1.
        line: u32,
    },
    /// 12: octave marks that leave −128 to 127.
    Octave {
        /// The line, from 1.
        line: u32,
    },
    /// 13: more than 255 equal `>` or `<` together.
    BrokenRhythm {
        /// The line, from 1.
        line: u32,
    },
    /// 14: `[` and a digit that begin a pass list of the wrong shape, as `[01`, `[1,` or `[1--2`. A list is tested as a whole, for 14, then 17, then 18.
    Passes {
        /// The line, from 1.
        line: u32,
    },
    /// 15: the scratch store is shorter than [`scratch_bytes`](crate::scratch_bytes).
    ScratchShort,
    /// 16: the reading store is shorter than the reading.
    ReadingShort,
    /// 17: a pass list with a number that is 0 or above 32, as `[0` or `[33`.
    PassRange {
        /// The line, from 1.
        line: u32,
    },
    /// 18: a pass list whose numbers do not rise, as `[3-1`, `[2,1` or `[1,1`.
    PassOrder {
        /// The line, from 1.
        line: u32,
    },
    /// 19: no whole reading ([`is_whole`](crate::is_whole)), or no such part: they are numbered from 1.
    NoSuchPart,
    /// 20: the list's store is shorter than [`list_bytes`](crate::list_bytes) of its numbers, or the list has over 4,294,967,295 of them; of [`Part::played`](crate::Part::played): it has more than were allowed.
    ListShort,
    /// 21: a key of more than seven sharps or flats, as `K:G#`, in the second edition ([`Edition::Abc21`](crate::Edition::Abc21)).
    KeyBeyond {
        /// The line, from 1.
        line: u32,
    },
    /// 22: more than 31 slashes in a row that halve the length of a note, a chord or a rest, in the second edition ([`Edition::Abc21`](crate::Edition::Abc21)).
    ///
    /// ```
    /// use sindvaelo::{Edition, Refusal, read_edition};
    ///
    /// let slashes = |count: usize| format!("K:C\n[CE]{}", "/".repeat(count));
    /// assert!(read_edition(slashes(31), Edition::Abc21).is_ok());
    /// assert_eq!(read_edition(slashes(32), Edition::Abc21), Err(Refusal::ManySlashes { line: 2 }));
    /// // Behind a slash with digits they are skipped.
    /// assert!(read_edition(format!("K:C\n[CE]/2{}", "/".repeat(40)), Edition::Abc21).is_ok());
    /// ```
    ManySlashes {
        /// The line, from 1.
        line: u32,
    },
    /// No number of the contract: the text is longer than the limit of a [`Reader`](crate::Reader).
    OverLimit {
        /// The reader's limit.
        limit: usize,
    },
    /// A number that this version of the crate has no name for.
    Other {
        /// The contract's number.
        number: u8,
        /// The line, from 1; 0: no line brought it about.
        line: u32,
    },
}

impl Refusal {
    pub(crate) fn of(number: u8, line: u32) -> Self {
        match number {
            1 => Self::NoMusic,
            2 => Self::TooLong,
            3 => Self::NotUtf8,
            4 => Self::TooManyLines { line },
            5 => Self::LineTooLong { line },
            6 => Self::NotAscii { line },
            7 => Self::SecondTune { line },
            8 => Self::NoVoiceIdentifier { line },
            9 => Self::TooManyVoices { line },
            10 => Self::Middle { line },
            11 => Self::TooManyNotes { line },
            12 => Self::Octave { line },
            13 => Self::BrokenRhythm { line },
            14 => Self::Passes { line },
            15 => Self::ScratchShort,
            16 => Self::ReadingShort,
            17 => Self::PassRange { line },
            18 => Self::PassOrder { line },
            19 => Self::NoSuchPart,
            20 => Self::ListShort,
            21 => Self::KeyBeyond { line },
            22 => Self::ManySlashes { line },
            _ => Self::Other { number, line },
        }
    }

    /// Its number in the contract, 1 to 22; 0 for a reader's own limit.
    pub fn number(&self) -> u8 {
        match self {
            Self::NoMusic => 1,
            Self::TooLong => 2,
            Self::NotUtf8 => 3,
            Self::TooManyLines { .. } => 4,
            Self::LineTooLong { .. } => 5,
            Self::NotAscii { .. } => 6,
            Self::SecondTune { .. } => 7,
            Self::NoVoiceIdentifier { .. } => 8,
            Self::TooManyVoices { .. } => 9,
            Self::Middle { .. } => 10,
            Self::TooManyNotes { .. } => 11,
            Self::Octave { .. } => 12,
            Self::BrokenRhythm { .. } => 13,
            Self::Passes { .. } => 14,
            Self::ScratchShort => 15,
            Self::ReadingShort => 16,
            Self::PassRange { .. } => 17,
            Self::PassOrder { .. } => 18,
            Self::NoSuchPart => 19,
            Self::ListShort => 20,
            Self::KeyBeyond { .. } => 21,
            Self::ManySlashes { .. } => 22,
            Self::OverLimit { .. } => 0,
            Self::Other { number, .. } => *number,
        }
    }

    /// Whether the sender of the tune can mend it; else the calling program can.
    ///
    /// ```
    /// assert!(sindvaelo::Refusal::NotUtf8.is_senders());
    /// assert!(!sindvaelo::Refusal::ReadingShort.is_senders() && !sindvaelo::Refusal::ListShort.is_senders());
    /// ```
    pub fn is_senders(&self) -> bool {
        !matches!(self.number(), 15 | 16 | 19 | 20)
    }

    /// The line of the text that brought it about; none for what no line does.
    pub fn line(&self) -> Option<u32> {
        match self {
            Self::NoMusic | Self::TooLong | Self::NotUtf8 | Self::ScratchShort | Self::ReadingShort | Self::NoSuchPart | Self::ListShort | Self::OverLimit { .. } => None,
            Self::TooManyLines { line }
            | Self::LineTooLong { line }
            | Self::NotAscii { line }
            | Self::SecondTune { line }
            | Self::NoVoiceIdentifier { line }
            | Self::TooManyVoices { line }
            | Self::Middle { line }
            | Self::TooManyNotes { line }
            | Self::Octave { line }
            | Self::BrokenRhythm { line }
            | Self::Passes { line }
            | Self::PassRange { line }
            | Self::PassOrder { line }
            | Self::KeyBeyond { line }
            | Self::ManySlashes { line }
            | Self::Other { line, .. } => (*line > 0).then_some(*line),
        }
    }
}

impl fmt::Display for Refusal {
    fn fmt(&self, f: &mut fmt::Formatter<'_>) -> fmt::Result {
        if let Self::OverLimit { limit } = self {
            return write!(f, "refused: over this reader's limit of {limit} bytes. Send the tunes one by one");
        }
        write!(f, "refused ({})", self.number())?;
        if let Some(line) = self.line() {
            write!(f, " at line {line}")?;
        }
        f.write_str(match self {
            Self::NoMusic => ": no music in it. Send a tune with a K: line and at least one line of music behind it",
            Self::TooLong => ": over 67,108,864 bytes. Send the tunes one by one",
            Self::NotUtf8 => ": not UTF-8. Convert the file to UTF-8",
            Self::TooManyLines { .. } => ": more than 10,000 lines. Send the tunes one by one",
            Self::LineTooLong { .. } => ": a line over 1,048,576 bytes. Break it into several lines",
            Self::NotAscii { .. } => ": a character that is not ASCII in a K, L, M or V line or in music. Replace it, or put it behind a %",
            Self::SecondTune { .. } => ": an X: line after the first K: line. Send one tune in a text",
            Self::NoVoiceIdentifier { .. } => ": V: without an identifier. Name the voice, as in V:1",
            Self::TooManyVoices { .. } => ": a 33rd voice; music before the first V: line counts as one. Split the tune",
            Self::Middle { .. } => ": a middle= word in a K or V field. Leave it out",
            Self::TooManyNotes { .. } => ": the 100,001st note, rest or chord. Split the tune",
            Self::Octave { .. } => ": octave marks beyond what a pitch can have. Take some of the , or ' away",
            Self::BrokenRhythm { .. } => ": more than 255 equal > or < together. Take some away",
            Self::Passes { .. } => ": an ending whose passes are no list. Write numbers without a leading zero, or two with one hyphen between, and single commas between them: [1 for [01 or [1-, [1,2 for [1,,2",
            Self::ScratchShort => ": the scratch store is too short. Lend one of scratch_bytes(text length) bytes",
            Self::ReadingShort => ": the reading store is too short. Lend one of reading_bytes(text length) bytes",
            Self::PassRange { .. } => ": an ending with a pass that is 0 or above 32, as in [0 or [33. Number the passes from 1 to 32",
            Self::PassOrder { .. } => ": an ending whose passes do not rise. Write each above the one before it: [1-3 for [3-1, [1,2 for [2,1",
            Self::NoSuchPart => ": no whole reading, or no part of that number. Take the bytes of a reading as it was read, and a part from 1 to its count of parts",
            Self::ListShort => ": more measures are played than the list has room for. Lend a store twice as long, or allow more numbers",
            Self::KeyBeyond { .. } => ": a key of more than seven sharps or flats, as in K:G# or K:Fb. Name the key that sounds the same: K:Ab for K:G#, K:E for K:Fb",
            Self::ManySlashes { .. } => ": more than 31 slashes in a row behind a note, chord or rest, where each halves its length. Take some away, or put a space before slashes that are no length",
            Self::OverLimit { .. } => unreachable!("said above"),
            Self::Other { .. } => ": this version of the crate has no name for it",
        })
    }
}

impl std::error::Error for Refusal {}
