//! Files that are copied into memory.
use crate::errors::{NoMemory, OpenError};
use crate::sys::memory::{bytes_of_mut, zeroed};
use std::fs::File;
use std::io::{ErrorKind, Read};
use std::path::Path;
use std::vec::Vec;

/// The whole words of the file at a path, copied into memory.
///
/// # Errors
/// `OpenError::System` where the system refuses the file, `OpenError::Stored` where memory is refused.
///
/// ```
/// use bitm_proved::{bytes_of, words_from_file, OpenError};
/// let path = std::env::temp_dir().join(format!("bitm-words-{}", std::process::id()));
/// assert!(matches!(words_from_file(&path), Err(OpenError::System(_)))); // there is no such file
/// std::fs::write(&path, &bytes_of(&[7, 9])[..15])?;
/// assert_eq!(words_from_file(&path)?, [7]);
/// # std::fs::remove_file(&path)?;
/// # Ok::<(), OpenError>(())
/// ```
pub fn words_from_file(path: impl AsRef<Path>) -> Result<Vec<u64>, OpenError> {
    let mut file = File::open(path)?;
    let len = file.metadata()?.len(); // 0 of a pipe, whose length nobody knows
    let mut words = zeroed(usize::try_from(len / 8 + 1).unwrap_or(usize::MAX))?;
    let mut filled = 0;
    loop {
        match file.read(&mut bytes_of_mut(&mut words)[filled..]) {
            Ok(0) => break,
            Ok(more) => filled += more,
            Err(why) if why.kind() == ErrorKind::Interrupted => {}
            Err(why) => return Err(why.into()),
        }
        if filled == size_of_val(&words[..]) {
            words = longer(&words)?;
        }
    }
    words.truncate(filled / 8);
    Ok(words)
}

/// The words, and after them room for as many.
fn longer(words: &[u64]) -> Result<Vec<u64>, NoMemory> {
    let mut all = zeroed(2 * words.len())?;
    all[..words.len()].copy_from_slice(words);
    Ok(all)
}
