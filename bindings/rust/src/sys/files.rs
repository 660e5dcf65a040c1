//! Indexes, sequences and all other structures over mapped files.
use crate::errors::OpenError;
use crate::sys::dictionary::owned::Dictionary;
use crate::sys::index::Index;
use crate::sys::key_hash::owned::KeyHash;
use crate::sys::mapped::Mapped;
use crate::sys::matrix::owned::WaveletMatrix;
use crate::sys::owned::Sequence;
use crate::sys::seeded::owned::SeededHash;
use crate::sys::sparse::owned::SparseBits;
use crate::sys::strings::owned::Strings;
use crate::sys::text::owned::TextIndex;
use crate::sys::tree::owned::Tree;
use crate::sys::trie::owned::Trie;
use std::path::Path;

/// A value over a file that is mapped. The texts: its name; the type whose `read` is called; the words of such a file;
/// an assertion about it, with the imports that this needs.
macro_rules! files {
    ($file:ident: $kind:ident; $it:literal, $read:literal, $words:literal, $right:literal, $imported:literal) => {
        #[doc = concat!($it, " over a file that is mapped: one value has the file and answers.")]
        ///
        #[doc = concat!("To open it takes `unsafe`. [`", $read, "::read`](crate::", $read, "::read) copies the")]
        /// file into memory, and takes none.
        ///
        /// ```
        #[doc = concat!("use bitm_proved::{bytes_of, ", stringify!($file), ", ", $imported, "};")]
        #[doc = concat!("let name = format!(\"bitm-", stringify!($file), "-{}\", std::process::id());")]
        /// let path = std::env::temp_dir().join(name);
        #[doc = concat!("std::fs::write(&path, bytes_of(", $words, "))?;")]
        #[doc = concat!("let copied = ", $read, "::read(&path)?;")]
        /// // SAFETY: nobody writes to the file or truncates it while it is mapped.
        #[doc = concat!("let mapped: ", stringify!($file), " = unsafe { ", stringify!($file), "::open(&path)? };")]
        #[doc = concat!("assert!(copied.", $right, " && mapped.", $right, ");")]
        /// # std::fs::remove_file(&path)?;
        /// # Ok::<(), Box<dyn std::error::Error>>(())
        /// ```
        pub type $file = $kind<Mapped>;

        impl $file {
            /// Maps the file at a path. What the file holds is not tested: `check` does that.
            ///
            #[doc = concat!("[`", $read, "::read`](crate::", $read, "::read) copies the file into memory,")]
            /// and takes no `unsafe`.
            ///
            /// # Safety
            /// Until the value is dropped, nobody may write to the file or truncate it: neither this process nor
            /// another.
            ///
            /// # Errors
            /// `OpenError::System` where the system refuses the file, and `OpenError::Stored` as for `from_bytes`.
            ///
            /// ```
            #[doc = concat!("use bitm_proved::{bytes_of, OpenError, ", stringify!($file), ", ", $imported, "};")]
            #[doc = concat!("let name = format!(\"bitm-open-", stringify!($file), "-{}\", std::process::id());")]
            /// let path = std::env::temp_dir().join(name);
            #[doc = concat!("std::fs::write(&path, bytes_of(", $words, "))?;")]
            /// // SAFETY: nobody writes to the file or truncates it while it is mapped.
            #[doc = concat!("let mapped = unsafe { ", stringify!($file), "::open(&path)? };")]
            #[doc = concat!("assert!(mapped.", $right, ");")]
            /// # std::fs::remove_file(&path)?;
            /// // SAFETY: there is no such file, so nothing is mapped.
            #[doc = concat!("let none = unsafe { ", stringify!($file), "::open(path.join(\"none\")) };")]
            /// assert!(matches!(none, Err(OpenError::System(_))));
            /// # Ok::<(), Box<dyn std::error::Error>>(())
            /// ```
            pub unsafe fn open(path: impl AsRef<Path>) -> Result<Self, OpenError> {
                // SAFETY: the caller's duty.
                let mapped = unsafe { Mapped::open(path)? };
                Ok($kind::from_bytes(mapped)?)
            }
        }
    };
}

files! { IndexFile: Index;
    "An index", "Index", "&Index::build(vec![0b1011u64]).to_stored(64)?", "select(2) == 3", "Index, Queries, Select"
}
files! { SequenceFile: Sequence;
    "A sequence", "EliasFano", "&EliasFano::build(&[2, 3, 5])?.to_stored()?", "get(2) == Some(5)", "EliasFano"
}
files! { TreeFile: Tree;
    "A tree", "Tree", "Tree::build(&[2, 0, 1, 0])?.block()", "parent(3) == Some(2)", "Tree"
}
files! { TrieFile: Trie;
    "A trie", "Trie", "Trie::build(&[1, 0], &[97], 8, &[2])?.block()", "find(b\"a\") == Some(1)", "Trie"
}
files! { WaveletMatrixFile: WaveletMatrix;
    "A list of numbers", "WaveletMatrix", "WaveletMatrix::build(&[3, 1, 4])?.block()", "count_less(0..3, 4) == Some(2)",
    "WaveletMatrix"
}
files! { SparseBitsFile: SparseBits;
    "Sparse bits", "SparseBits", "SparseBits::build(&[3, 100], 5000)?.block()", "rank(101) == Some(2)", "SparseBits"
}
files! { TextIndexFile: TextIndex;
    "The index of a text", "TextIndex", "TextIndex::build(b\"banana\", 32)?.view().block()",
    "view().count(b\"ana\") == Ok(2)", "TextIndex"
}
files! { DictionaryFile: Dictionary;
    "A dictionary", "Dictionary", "Dictionary::build(&[4, 9, 49])?.block()", "contains(49)", "Dictionary"
}
files! { StringsFile: Strings;
    "Strings", "Strings", "Strings::build(&[\"ada\", \"bob\"])?.block()", "contains(b\"bob\")", "Strings"
}
files! { SeededHashFile: SeededHash;
    "A hash with seeds", "SeededHash", "SeededHash::build(vec![5])?.block()", "get(5) == Some(0)", "SeededHash"
}
files! { KeyHashFile: KeyHash;
    "A hash of keys", "KeyHash", "KeyHash::build(&[\"ada\"])?.block()", "get(\"ada\") == Some(0)", "KeyHash"
}
