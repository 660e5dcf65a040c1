//! Blocks: a structure of any kind in one slice of words, which is also its file. What all views of blocks have.
use crate::errors::{StoredError, WrongTables};
use crate::sys::kinds::Kind;
use crate::sys::{query, OK};
use core::mem::MaybeUninit;

/// The first word of a block: the letters `bitmtab`, and the version. Blocks of version 3 are read alone.
const MARKS: [u64; 2] = [u64::from_ne_bytes(*b"bitmtab\x03"), u64::from_ne_bytes(*b"bitmtab\x04")];

/// Whether the words of a file begin as a block does.
pub(crate) fn is_block(file: &[u64]) -> bool {
    file.first().is_some_and(|mark| MARKS.contains(mark))
}

/// The words of the block that begins a file, by its first words.
pub(crate) fn block_in(file: &[u64]) -> Option<&[u64]> {
    match *file {
        [_, _, bytes, ..] if is_block(file) => file.get(..(bytes / 8) as usize),
        _ => None,
    }
}

/// A struct of C that says where the parts of a block are, and the calls that open and check such a block.
///
/// # Safety
/// It has numbers and pointers alone, so that zero bytes are a value. Where `OPEN` returns OK, the pointers that it has
/// written lie in the block.
pub(crate) unsafe trait Parts: Copy {
    const OPEN: unsafe extern "C" fn(*const u64, usize, *mut Self) -> u32;
    const CHECK: unsafe extern "C" fn(*const u64, usize) -> u32;
    const KIND: Kind;

    /// How many bits, numbers, keys, nodes or letters there are.
    fn len(&self) -> usize;
}

/// A borrowed block, whose header is right.
#[derive(Clone, Copy)]
pub(crate) struct Block<'a, P> {
    parts: P,
    words: &'a [u64],
}

// SAFETY: the pointers lie in a shared slice, and no call has state.
unsafe impl<P: Parts> Send for Block<'_, P> {}
// SAFETY: as for `Send`.
unsafe impl<P: Parts> Sync for Block<'_, P> {}

impl<'a, P: Parts> Block<'a, P> {
    /// The block that begins the words of a file.
    pub(crate) fn open(file: &'a [u64]) -> Result<Self, StoredError> {
        let words = block_in(file).ok_or_else(|| P::KIND.refused(file))?;
        let mut parts = MaybeUninit::zeroed();
        // SAFETY: a slice, and a struct of zeros, which the call may write.
        match unsafe { P::OPEN(words.as_ptr(), words.len(), parts.as_mut_ptr()) } {
            // SAFETY: zero bytes are a value, and so is what the call has written.
            OK => Ok(Block { parts: unsafe { parts.assume_init() }, words }),
            _ => Err(P::KIND.refused(words)),
        }
    }

    #[inline]
    pub(crate) fn words(&self) -> &'a [u64] {
        self.words
    }

    #[inline(always)]
    pub(crate) fn parts(&self) -> &P {
        &self.parts
    }

    pub(crate) fn check(&self) -> bool {
        Self::is_written(self.words)
    }

    /// Whether a block is as it was written and holds such a structure.
    pub(crate) fn is_written(block: &[u64]) -> bool {
        // SAFETY: a slice.
        unsafe { P::CHECK(block.as_ptr(), block.len()) == OK }
    }

    /// Makes a query of the parts, whose pointers lie in the borrowed block.
    ///
    /// # Safety
    /// Where the call returns OK, it has written the number.
    #[inline(always)]
    pub(crate) unsafe fn query(
        &self,
        call: impl FnOnce(*const P, *mut u64) -> u32,
    ) -> Result<Option<u64>, WrongTables> {
        // SAFETY: the caller's duty.
        unsafe { query(|out| call(&self.parts, out)) }
    }

    /// As `query`, of a position, an index or a count.
    ///
    /// # Safety
    /// As of `query`.
    #[inline(always)]
    pub(crate) unsafe fn find(
        &self,
        call: impl FnOnce(*const P, *mut u64) -> u32,
    ) -> Result<Option<usize>, WrongTables> {
        // SAFETY: the caller's duty.
        let found = unsafe { self.query(call) };
        Ok(found?.map(|it| it as usize))
    }
}

/// What each view of a block has beside its queries. Its kind; how many nodes, numbers, .. the struct of C has; the calls that
/// open and check a block; whose block it is; an example of its owner, and how many that has; what they are; what
/// `check` finds.
macro_rules! views {
    ($view:ident of $kind:ident; |$it:ident: $parts:ty| $count:expr, $open:ident, $check:ident;
     $of:literal, $made:literal, $len:literal, $counted:literal, $checked:literal) => {
        // SAFETY: numbers and pointers alone; the call that opens a block writes pointers into it.
        unsafe impl Parts for $parts {
            const OPEN: unsafe extern "C" fn(*const u64, usize, *mut Self) -> u32 = $open;
            const CHECK: unsafe extern "C" fn(*const u64, usize) -> u32 = $check;
            const KIND: crate::Kind = crate::Kind::$kind;

            #[inline(always)]
            fn len(&self) -> usize {
                let $it = self;
                $count
            }
        }

        impl<'a> $view<'a> {
            /// Of the block that begins the words of a file. What its sections hold is not tested: `check` does that.
            ///
            /// # Errors
            /// `OtherKind` where the words begin with the block of another structure; `NotWhole` where they begin with no block,
            /// or are fewer than it has.
            ///
            /// ```
            #[doc = concat!("use bitm_proved::{StoredError, ", stringify!($view), "};")]
            #[doc = concat!("let made = ", $made, ";")]
            /// let file = made.view().block();
            #[doc = concat!("assert_eq!(", stringify!($view), "::from_words(file)?.len(), ", $len, ");")]
            #[doc = concat!("let other = ", stringify!($view), "::from_words(&file[1..]);")]
            /// assert_eq!(other.err(), Some(StoredError::NotWhole));
            /// # Ok::<(), Box<dyn std::error::Error>>(())
            /// ```
            pub fn from_words(file: &'a [u64]) -> Result<Self, StoredError> {
                Ok($view { block: Block::open(file)? })
            }

            /// Of the bytes of a file, which begin at a multiple of 8.
            ///
            /// # Errors
            /// As of `from_words`; `Misaligned` where they begin elsewhere.
            ///
            /// ```
            #[doc = concat!("use bitm_proved::{bytes_of, StoredError, ", stringify!($view), "};")]
            #[doc = concat!("let made = ", $made, ";")]
            /// let file = bytes_of(made.view().block());
            #[doc = concat!("assert_eq!(", stringify!($view), "::from_bytes(file)?.len(), ", $len, ");")]
            #[doc = concat!("let moved = ", stringify!($view), "::from_bytes(&file[1..]);")]
            /// assert_eq!(moved.err(), Some(StoredError::Misaligned));
            /// # Ok::<(), Box<dyn std::error::Error>>(())
            /// ```
            pub fn from_bytes(bytes: &'a [u8]) -> Result<Self, StoredError> {
                Self::from_words(words_of(bytes).ok_or(StoredError::Misaligned)?)
            }

            #[doc = concat!("The words of the block, which is also the file of ", $of, ".")]
            ///
            /// ```
            #[doc = concat!("use bitm_proved::", stringify!($view), ";")]
            #[doc = concat!("let made = ", $made, ";")]
            /// let mut file = made.view().block().to_vec();
            /// file.push(7); // no word of the block
            #[doc = concat!("assert_eq!(", stringify!($view), "::from_words(&file)?.block(), made.view().block());")]
            /// # Ok::<(), Box<dyn std::error::Error>>(())
            /// ```
            #[inline]
            pub fn block(&self) -> &'a [u64] {
                self.block.words()
            }

            #[doc = concat!("How many ", $counted, " there are.")]
            ///
            /// ```
            #[doc = concat!("assert_eq!(", $made, ".view().len(), ", $len, ");")]
            /// # Ok::<(), bitm_proved::BuildError>(())
            /// ```
            #[inline]
            pub fn len(&self) -> usize {
                self.block.parts().len()
            }

            /// Whether there are none.
            ///
            /// ```
            #[doc = concat!("assert!(!", $made, ".view().is_empty());")]
            /// # Ok::<(), bitm_proved::BuildError>(())
            /// ```
            #[inline]
            pub fn is_empty(&self) -> bool {
                self.len() == 0
            }

            #[doc = concat!("Whether the block is as it was written and holds ", $checked, ".")]
            ///
            /// ```
            #[doc = concat!("use bitm_proved::", stringify!($view), ";")]
            #[doc = concat!("let mut block = ", $made, ".into_owner();")]
            #[doc = concat!("assert!(", stringify!($view), "::from_words(&block)?.check());")]
            /// *block.last_mut().unwrap() ^= 1;
            #[doc = concat!("assert!(!", stringify!($view), "::from_words(&block)?.check());")]
            /// # Ok::<(), Box<dyn std::error::Error>>(())
            /// ```
            pub fn check(&self) -> bool {
                self.block.check()
            }
        }

        impl core::fmt::Debug for $view<'_> {
            fn fmt(&self, f: &mut core::fmt::Formatter<'_>) -> core::fmt::Result {
                self.show(f, stringify!($view))
            }
        }
    };
}
pub(crate) use views;
