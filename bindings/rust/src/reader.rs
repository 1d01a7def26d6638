//! Text after text with the same stores.
use crate::{Edition, MOST_BYTES, Reading, Refusal, parse_abc_edition, reading_bytes, scratch_bytes};

/// Reads text after text with the same two stores, which grow with need. Nothing of a text shows in the reading of another.
///
/// ```
/// use sindvaelo::{Reader, Refusal};
///
/// let mut reader = Reader::with_limit(100_000);
/// assert_eq!(reader.read("K:C\nABc|")?.parts().len(), 1);
/// assert_eq!(reader.read(vec![b'A'; 100_001]), Err(Refusal::OverLimit { limit: 100_000 }));
/// reader.release();
/// assert_eq!(reader.memory(), 0);
/// # Ok::<(), Refusal>(())
/// ```
#[derive(Debug, Clone)]
pub struct Reader {
    reading: Vec<u8>,
    scratch: Vec<u8>,
    limit: usize,
    edition: Edition,
}

impl Default for Reader {
    fn default() -> Self {
        Self::with_limit(MOST_BYTES)
    }
}

/// How long a reading store is tried first. Of the texts measured (docs/SWITCHING.md) none has a reading of more than 12 bytes for a byte of text, and most of
/// a quarter of that.
fn first_bytes(n: usize) -> usize {
    reading_bytes(n).min(12 * n + 1024)
}

/// Makes a store `n` bytes long at least. What it held does not matter, so nothing is copied.
fn grow(store: &mut Vec<u8>, n: usize) {
    if store.len() < n {
        *store = Vec::new();
        *store = vec![0; n];
    }
}

impl Reader {
    /// A reader without stores yet, for texts of any length that the contract allows, in the first edition.
    pub fn new() -> Self {
        Self::default()
    }

    /// A reader that refuses texts of more than `limit` bytes.
    pub fn with_limit(limit: usize) -> Self {
        Self { reading: Vec::new(), scratch: Vec::new(), limit, edition: Edition::First }
    }

    /// A reader of an edition.
    ///
    /// ```
    /// use sindvaelo::{Edition, Reader};
    ///
    /// let mut reader = Reader::with_edition(Edition::Abc21);
    /// reader.set_limit(100_000);
    /// assert_eq!(reader.read("K:C\n(5A")?.parts().next().unwrap().notes().next().unwrap().tuplet().unwrap().normal_notes, 2);
    /// # Ok::<(), sindvaelo::Refusal>(())
    /// ```
    pub fn with_edition(edition: Edition) -> Self {
        Self { edition, ..Self::default() }
    }

    /// The edition that this reader reads.
    pub fn edition(&self) -> Edition {
        self.edition
    }

    /// The most bytes of a text that this reader takes.
    pub fn limit(&self) -> usize {
        self.limit
    }

    /// Sets the most bytes of a text that this reader takes. A longer one is refused before anything is allocated.
    pub fn set_limit(&mut self, limit: usize) {
        self.limit = limit;
    }

    /// How many bytes of memory the stores have.
    pub fn memory(&self) -> usize {
        self.reading.capacity() + self.scratch.capacity()
    }

    /// Gives the stores back. The next text makes new ones.
    pub fn release(&mut self) {
        (self.reading, self.scratch) = (Vec::new(), Vec::new());
    }

    /// Reads a text; the reading looks into this reader's store until the next call.
    pub fn read(&mut self, text: impl AsRef<[u8]>) -> Result<Reading<&[u8]>, Refusal> {
        let length = self.parse(text.as_ref())?;
        Ok(Reading::trusted(&self.reading[..length]))
    }

    /// The same, and the reading keeps the store.
    pub(crate) fn read_owned(mut self, text: &[u8]) -> Result<Reading<Vec<u8>>, Refusal> {
        let length = self.parse(text)?;
        self.scratch = Vec::new();
        self.reading.truncate(length);
        self.reading.shrink_to_fit();
        Ok(Reading::trusted(self.reading))
    }

    fn parse(&mut self, text: &[u8]) -> Result<usize, Refusal> {
        let (n, edition) = (text.len(), self.edition);
        if n > MOST_BYTES {
            return parse_abc_edition(text, &mut [], &mut [], edition);
        }
        if n > self.limit {
            return Err(Refusal::OverLimit { limit: self.limit });
        }
        if self.scratch.len() < scratch_bytes(n) || self.reading.len() < first_bytes(n) {
            // Refusals 2, 3 and a blank text's 1 come before 15: they need no store.
            match parse_abc_edition(text, &mut [], &mut [], edition) {
                Err(Refusal::ScratchShort) => {}
                other => return other,
            }
        }
        grow(&mut self.scratch, scratch_bytes(n));
        grow(&mut self.reading, first_bytes(n));
        // Only as much of them as this text can need: a call clears all that it is lent.
        let lent = self.reading.len().min(reading_bytes(n));
        match parse_abc_edition(text, &mut self.reading[..lent], &mut self.scratch[..scratch_bytes(n)], edition) {
            Err(Refusal::ReadingShort) => {
                grow(&mut self.reading, reading_bytes(n));
                parse_abc_edition(text, &mut self.reading[..reading_bytes(n)], &mut self.scratch[..scratch_bytes(n)], edition)
            }
            other => other,
        }
    }
}
