//! Indexes and sequences in files: each is a block, the same bytes from each language. Files of format version 2 are
//! read too.
use crate::errors::{BuildError, StoredError};
use crate::ffi::blocks::*;
use crate::ffi::words::*;
use crate::sys::block::{is_block, Block, Parts};
use crate::sys::kinds::Kind;
use crate::sys::memory::{copied, halves, halves_mut, words_of, zeroed};
use crate::sys::sections::{extended, section, Section};
use crate::sys::sequence::{build, SequenceView};
use crate::sys::tables::samples_len;
use crate::sys::view::{IndexView, Samples, NO_SAMPLES};
use crate::sys::{version2, OK};
use alloc::vec::Vec;

// SAFETY: numbers and pointers alone; the call that opens a block writes pointers into it.
unsafe impl Parts for bitm_index {
    const OPEN: unsafe extern "C" fn(*const u64, usize, *mut Self) -> u32 = bitm_index_block_open;
    const CHECK: unsafe extern "C" fn(*const u64, usize) -> u32 = bitm_index_block_check;
    const KIND: Kind = Kind::Index;

    fn len(&self) -> usize {
        self.bits_len as usize
    }
}

// SAFETY: numbers and pointers alone; the call that opens a block writes pointers into it.
unsafe impl Parts for bitm_sequence {
    const OPEN: unsafe extern "C" fn(*const u64, usize, *mut Self) -> u32 = bitm_sequence_block_open;
    const CHECK: unsafe extern "C" fn(*const u64, usize) -> u32 = bitm_sequence_block_check;
    const KIND: Kind = Kind::Sequence;

    fn len(&self) -> usize {
        self.len
    }
}

/// How many sections the block of an index has of its own: words, and both tables.
const OWN_SECTIONS: usize = 3;

/// The roles of samples of 1 bits, or of 0 bits, and of the section after them: the letters `bitmsta1`, or `bitmsta0`.
/// That section has the logarithm of the distance of samples, and then how many samples there are before each upper
/// block.
fn roles(one: bool) -> (u64, u64) {
    match one {
        true => (7, u64::from_le_bytes(*b"bitmsta1")),
        false => (8, u64::from_le_bytes(*b"bitmsta0")),
    }
}

/// The samples in two sections, where their lengths are those that samples of an index have.
fn samples_of<'a>(view: &IndexView<'a>, samples: Section<'a>, starts: Section<'a>) -> Option<Samples<'a>> {
    let (&log2, before) = starts.words.split_first()?;
    let log2 = u32::try_from(log2).ok().filter(|it| (7..=31).contains(it))?;
    let is_whole = starts.count == 8 * starts.words.len() && before.len() == view.upper().len();
    let fits = is_whole && samples.count <= samples_len(view.words().len(), log2);
    fits.then(|| Samples { samples: &halves(samples.words)[..samples.count], starts: before, log2 })
}

/// The samples of a kind that stand in a block after its own sections.
fn samples_in<'a>(block: &'a [u64], view: &IndexView<'a>, one: bool) -> Option<Samples<'a>> {
    let from = |first: usize| (first..).map_while(|i| section(block, i).ok().flatten());
    let mut pairs = from(OWN_SECTIONS).zip(from(OWN_SECTIONS + 1));
    pairs.find_map(|(samples, starts)| {
        let is_pair = (samples.role, starts.role) == roles(one);
        is_pair.then(|| samples_of(view, samples, starts)).flatten()
    })
}

/// The block of an index, with sections of samples after its own: one for each 2^`log2` bits of a kind.
fn with_samples(block: &[u64], one: bool, log2: u32) -> Result<Vec<u64>, StoredError> {
    let view = IndexView::from_words(block)?;
    let (role, starts_role) = roles(one);
    let log2 = log2.clamp(7, 31);
    let room = samples_len(view.words().len(), log2);
    let (mut samples, mut starts) = (zeroed(room.div_ceil(2))?, zeroed(1 + view.upper().len())?);
    let (halves, before) = (&mut halves_mut(&mut samples)[..room], &mut starts[1..]);
    let used = view.build_samples(one, log2, halves, before).ok_or(StoredError::WrongLength)?;
    halves[used..].fill(0);
    starts[0] = u64::from(log2);
    let sampled = extended(block, role, used, &samples[..used.div_ceil(2)])?;
    extended(&sampled, starts_role, 8 * starts.len(), &starts)
}

impl<'a> IndexView<'a> {
    /// Of the words of a file: of a block, with the samples that stand in it, or of a file of format version 2. What
    /// its sections hold is not tested: `check` does that.
    ///
    /// # Errors
    /// `NotWhole` where these are no such words, or fewer than the file has; `OtherKind` where they hold another
    /// structure.
    ///
    /// ```
    /// use bitm_proved::{ArrayWithRank101111, IndexView, Queries, Select, StoredError};
    /// let index: ArrayWithRank101111 = vec![0b1011, 7].into_boxed_slice().into();
    /// let file = index.to_stored(66)?; // of the 128 bits, the first 66
    /// let read = IndexView::from_words(&file)?;
    /// assert_eq!((read.len(), read.select(4), read.try_select(5)), (66, 65, None));
    /// assert_eq!(read.to_words()?, file);
    /// assert_eq!(IndexView::from_words(&file[1..]).err(), Some(StoredError::NotWhole));
    /// # Ok::<(), StoredError>(())
    /// ```
    pub fn from_words(file: &'a [u64]) -> Result<Self, StoredError> {
        if !is_block(file) {
            return version2::index_of(file);
        }
        let block = Block::<bitm_index>::open(file)?;
        // The call that opens a block names no samples, by pointers that are not null.
        let parts = bitm_index { ones: NO_SAMPLES, zeros: NO_SAMPLES, ..*block.parts() };
        let mut view = IndexView::of(parts);
        for one in [true, false] {
            if let Some(samples) = samples_in(block.words(), &view, one) {
                view = view.with_samples(one, samples);
            }
        }
        Ok(view.in_block(block.words()))
    }

    /// Of the bytes of a file, which begin at a multiple of 8: as `from_words`.
    ///
    /// # Errors
    /// As of `from_words`; `Misaligned` where they begin elsewhere.
    ///
    /// ```
    /// use bitm_proved::{bytes_of, ArrayWithRank101111, IndexView, Queries, Rank};
    /// let index: ArrayWithRank101111 = vec![0b1011, 7].into_boxed_slice().into();
    /// let file = index.to_stored(128)?;
    /// assert_eq!(IndexView::from_bytes(bytes_of(&file))?.rank(128), 6);
    /// # Ok::<(), bitm_proved::StoredError>(())
    /// ```
    pub fn from_bytes(bytes: &'a [u8]) -> Result<Self, StoredError> {
        Self::from_words(words_of(bytes).ok_or(StoredError::Misaligned)?)
    }

    /// The words of a file of this index: a block, with samples where it has some. A view of a block returns a copy of
    /// that block; else tables and samples are built anew.
    ///
    /// # Errors
    /// `WrongTables` where the tables do not match the words; `NoMemory` where memory is refused.
    ///
    /// ```
    /// use bitm_proved::{ArrayWithRank101111, IndexView, Queries, Select};
    /// let index: ArrayWithRank101111 = vec![0b1011, 7].into_boxed_slice().into();
    /// let file = index.view().to_words()?;
    /// assert_eq!(file, index.to_stored(128)?);
    /// assert_eq!(IndexView::from_words(&file)?.select(5), 66);
    /// # Ok::<(), bitm_proved::StoredError>(())
    /// ```
    pub fn to_words(&self) -> Result<Vec<u64>, StoredError> {
        match self.block() {
            Some(block) => Ok(copied(block)?),
            None if self.has_tables() => self.block_of(self.len()),
            None => Err(StoredError::WrongTables),
        }
    }

    /// The block of its first bits, whose tables are built anew, and samples too where it has some.
    pub(crate) fn block_of(&self, bits_len: usize) -> Result<Vec<u64>, StoredError> {
        let (words, bits, mut size) = (self.words(), bits_len as u64, 0);
        // SAFETY: a number is passed, and room for one.
        if unsafe { bitm_index_block_size(bits, &mut size) } != OK {
            return Err(StoredError::WrongLength);
        }
        let mut block = zeroed(size as usize)?;
        // SAFETY: a shared and a mutable slice, which do not overlap.
        let status =
            unsafe { bitm_index_block_build(words.as_ptr(), words.len(), bits, block.as_mut_ptr(), block.len()) };
        if status != OK {
            return Err(StoredError::WrongLength);
        }
        for one in [true, false] {
            if let Some(samples) = self.samples(one) {
                block = with_samples(&block, one, samples.log2)?;
            }
        }
        Ok(block)
    }
}

impl<'a> SequenceView<'a> {
    /// Of the words of a file: of a block, or of a file of format version 2. What its sections hold is not tested:
    /// `check` does that.
    ///
    /// # Errors
    /// `NotWhole` where these are no such words, or fewer than the file has; `OtherKind` where they hold another
    /// structure.
    ///
    /// ```
    /// use bitm_proved::{EliasFano, SequenceView};
    /// let file = EliasFano::build(&[2, 3, 5])?.to_stored()?;
    /// let read = SequenceView::from_words(&file)?;
    /// assert_eq!((read.len(), read.get(2), read.get(3)), (3, Some(5), None));
    /// # Ok::<(), Box<dyn std::error::Error>>(())
    /// ```
    pub fn from_words(file: &'a [u64]) -> Result<Self, StoredError> {
        if !is_block(file) {
            return version2::sequence_of(file);
        }
        let block = Block::<bitm_sequence>::open(file)?;
        Ok(SequenceView::of(*block.parts()).in_block(block.words()))
    }

    /// Of the bytes of a file, which begin at a multiple of 8: as `from_words`.
    ///
    /// # Errors
    /// As of `from_words`; `Misaligned` where they begin elsewhere.
    ///
    /// ```
    /// use bitm_proved::{bytes_of, EliasFano, SequenceView, StoredError};
    /// let file = EliasFano::build(&[2, 3, 5])?.to_stored()?;
    /// assert_eq!(SequenceView::from_bytes(bytes_of(&file))?.get(1), Some(3));
    /// assert_eq!(SequenceView::from_bytes(&bytes_of(&file)[1..]).err(), Some(StoredError::Misaligned));
    /// # Ok::<(), Box<dyn std::error::Error>>(())
    /// ```
    pub fn from_bytes(bytes: &'a [u8]) -> Result<Self, StoredError> {
        Self::from_words(words_of(bytes).ok_or(StoredError::Misaligned)?)
    }

    /// The words of a file of this sequence, which are a block. A view of a block returns a copy of that block; else
    /// the numbers are read, in eight bytes each, and built anew.
    ///
    /// # Errors
    /// `WrongTables` where the parts form no sequence; `NoMemory` where memory is refused.
    ///
    /// ```
    /// use bitm_proved::{EliasFano, SequenceView};
    /// let file = EliasFano::build(&[2, 3, 5])?.view().to_words()?;
    /// assert_eq!(SequenceView::from_words(&file)?.get(0), Some(2));
    /// assert_eq!(SequenceView::from_words(&file)?.to_words()?, file);
    /// # Ok::<(), Box<dyn std::error::Error>>(())
    /// ```
    pub fn to_words(&self) -> Result<Vec<u64>, StoredError> {
        if let Some(block) = self.block() {
            return Ok(copied(block)?);
        }
        if !self.check() {
            return Err(StoredError::WrongTables);
        }
        let mut items = zeroed(self.len())?;
        let found = self.items(0, &mut items).len();
        if found < items.len() {
            return Err(StoredError::WrongTables);
        }
        build(&items).map_err(|why| match why {
            BuildError::NoMemory(why) => StoredError::NoMemory(why),
            _ => StoredError::WrongTables,
        })
    }
}
