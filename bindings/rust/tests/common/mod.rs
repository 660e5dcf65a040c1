//! Shared by the tests: random numbers, plain lists of bits, the messages of panics, spoilt blocks.
#![allow(dead_code, unused_macros, unused_imports)]
use bitm_proved::{Kind, StoredError};
use std::panic::{catch_unwind, UnwindSafe};

pub struct Random(pub u64);

impl Random {
    pub fn next(&mut self) -> u64 {
        self.0 ^= self.0 << 13;
        self.0 ^= self.0 >> 7;
        self.0 ^= self.0 << 17;
        self.0
    }

    pub fn below(&mut self, end: usize) -> usize {
        self.next() as usize % end
    }

    /// Words of few, some, half, many or only 1 bits.
    pub fn words(&mut self, len: usize) -> Vec<u64> {
        let kind = self.below(6);
        (0..len)
            .map(|_| match kind {
                0 => self.next() & self.next() & self.next() & self.next(),
                1 => self.next() & self.next(),
                2 => self.next(),
                3 => self.next() | self.next() | self.next(),
                4 => u64::MAX,
                _ => 0,
            })
            .collect()
    }
}

/// The error for a right file of another kind.
pub fn other_kind(held: Kind, wanted: Kind) -> Option<StoredError> {
    Some(StoredError::OtherKind { held, wanted })
}

/// The first `len` bits, one by one.
pub fn bits_of(words: &[u64], len: usize) -> Vec<bool> {
    (0..len).map(|i| words[i / 64] >> (i % 64) & 1 == 1).collect()
}

/// The positions of the bits of a kind.
pub fn positions_of(bits: &[bool], one: bool) -> Vec<usize> {
    (0..bits.len()).filter(|i| bits[*i] == one).collect()
}

/// What a panic says.
pub fn says(call: impl FnOnce() + UnwindSafe) -> String {
    let why = catch_unwind(call).expect_err("this panics");
    match why.downcast::<String>() {
        Ok(text) => *text,
        Err(why) => why.downcast_ref::<&str>().map_or(String::new(), |it| it.to_string()),
    }
}

/// Where the first section of a block begins, by its directory.
pub fn first_section(block: &[u64]) -> usize {
    block[17] as usize / 8
}

/// The blocks that differ from a good one in one bit, every `step` bits of each word, and whether it is in the header.
pub fn with_one_bit_changed(good: &[u64], step: usize, mut look: impl FnMut(&[u64], bool)) {
    for at in 0..good.len() {
        for bit in (0..64).step_by(step) {
            let mut block = good.to_vec();
            block[at] ^= 1 << bit;
            look(&block, at < first_section(good));
        }
    }
}

/// Blocks with the header of a good one, and any words after it.
pub fn with_any_words(good: &[u64], random: &mut Random, mut look: impl FnMut(&[u64], &mut Random)) {
    for _ in 0..300 {
        let mut block = good.to_vec();
        block[first_section(good)..].iter_mut().for_each(|it| *it = random.next() & random.next());
        look(&block, random);
    }
}

/// Whether any owner has what a block holds, in words or bytes and wherever it is moved, and so has a view: `look` looks
/// at what each shows.
macro_rules! any_owner {
    ($kind:ident, $view:ident, $file:expr, $shown:expr, $look:expr) => {{
        let (file, look): (&Vec<u64>, &dyn Fn(&$view<'_>)) = (&$file, &$look);
        fn held<O: AsRef<[u64]>>(owner: O, file: &[u64], shown: &str, look: &dyn Fn(&$view<'_>)) {
            let mut many: Vec<$kind<O>> = vec![$kind::from_words(owner).expect("a block")];
            many.reserve(100); // moves it
            let made = Box::new(many.remove(0));
            look(made.view());
            assert_eq!((format!("{made:?}").as_str(), made.owner().as_ref()), (shown, file));
            assert_eq!(made.into_owner().as_ref(), file);
        }
        held(&file[..], file, $shown, look);
        held(file.clone().into_boxed_slice(), file, $shown, look);
        held(std::sync::Arc::<[u64]>::from(&file[..]), file, $shown, look);
        look($kind::from_bytes(bitm_proved::bytes_of(file)).expect("aligned").view());
        let longer = [file.clone(), vec![7; 5]].concat();
        let view = $view::from_words(&longer).expect("words after the block are not its own");
        assert_eq!(view.block(), file);
        look(&view);
    }};
}
pub(crate) use any_owner;

/// Borrows other words each time: what it owns uses the first.
pub struct Fickle(pub Vec<u64>, pub Vec<u64>, pub std::cell::Cell<bool>);

impl AsRef<[u64]> for Fickle {
    fn as_ref(&self) -> &[u64] {
        if self.2.replace(true) {
            &self.1
        } else {
            &self.0
        }
    }
}
