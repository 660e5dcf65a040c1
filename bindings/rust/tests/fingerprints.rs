//! Fingerprints of the keys of perfect hashes, without seeds and with them: where they stand, what is found by them, and
//! what is refused.
mod common;
use bitm_proved::{words, ListError, PerfectHash, SeededHash, WrongTables, NO_ANSWER, WRONG_TABLES};
use common::{says, Random};

fn drawn(count: usize, random: &mut Random) -> Vec<u64> {
    (0..count).map(|_| random.next()).collect()
}

/// The fingerprint of each key stands at its number, all other bits stay, and only a key with its fingerprint is found.
/// Queries that return errors are those of `$checked`.
macro_rules! printed {
    ($numbers:expr, $checked:expr, $hashes:expr, $width:expr, $random:expr) => {{
        let (numbers, hashes, width, keys) = (&$numbers, &$hashes, $width, $hashes.len());
        let own = drawn(keys, $random);
        let others: Vec<u64> = own.iter().map(|it| it ^ 1 << $random.below((width as usize).max(1))).collect();
        let mut prints = vec![u64::MAX; (keys * width as usize).div_ceil(64) + 1];
        assert_eq!(numbers.set_prints(hashes, &own, &mut prints, width), Ok(true));
        let mut out = vec![0; keys];
        for i in 0..keys {
            let (number, mask) = (numbers.get(hashes[i]), if width == 64 { u64::MAX } else { (1 << width) - 1 });
            let at = number.expect("a key") * width as usize;
            assert_eq!(words::get_number(&prints, 64 * prints.len(), at, width as u8), Some(own[i] & mask));
            assert_eq!(numbers.find(&prints, width, hashes[i], own[i]), number);
            assert_eq!(numbers.find(&prints, width, hashes[i], own[i] & mask), number);
            let other = $checked.checked_find(&prints, width, hashes[i], others[i]);
            assert_eq!(other, Ok(number.filter(|_| width == 0)));
            out[i] = number.expect("a key");
        }
        let of_keys = keys * width as usize;
        assert!((of_keys..64 * prints.len()).all(|it| words::get(&prints, 64 * prints.len(), it) == Some(true)));
        let mut listed = vec![7; keys];
        assert_eq!((numbers.find_list(&prints, width, hashes, &own, &mut listed), &listed), (Ok(0), &out));
        let missing = if width == 0 { 0 } else { keys };
        assert_eq!(numbers.find_list(&prints, width, hashes, &others, &mut listed), Ok(missing));
        assert!(width == 0 || listed.iter().all(|it| *it == NO_ANSWER));
    }};
}

/// What is no key is found about once in 2^8.
macro_rules! strangers {
    ($numbers:expr, $hashes:expr, $random:expr) => {{
        let (numbers, own, mut prints) = (&$numbers, drawn($hashes.len(), $random), vec![0; $hashes.len() / 8 + 1]);
        assert_eq!(numbers.set_prints(&$hashes, &own, &mut prints, 8), Ok(true));
        let found = (0..20_000).filter(|_| numbers.find(&prints, 8, $random.next(), $random.next()).is_some());
        assert!(found.count() < 200);
    }};
}

/// Lengths and widths that are refused change nothing; a fingerprint that is not there is an error, and no number.
macro_rules! refused {
    ($numbers:expr, $checked:expr, $hashes:expr) => {{
        let (numbers, checked, hashes, keys) = (&$numbers, &$checked, &$hashes, $hashes.len());
        let (own, mut prints, mut out) = (vec![5; keys], vec![9; keys], vec![7; keys]);
        let pairs = ListError::Pairs { first: keys, second: keys - 1 };
        assert_eq!(numbers.set_prints(hashes, &own[1..], &mut prints, 8), Err(pairs));
        assert_eq!(numbers.find_list(&prints, 8, hashes, &own[1..], &mut out), Err(pairs));
        let lengths = ListError::Lengths { queries: keys, room: keys - 1 };
        assert_eq!(numbers.find_list(&prints, 8, hashes, &own, &mut out[1..]), Err(lengths));
        assert_eq!((&prints, &out), (&vec![9; keys], &vec![7; keys]));
        for text in [
            says(|| assert!(numbers.set_prints(&[], &[], &mut [], 65).is_err())),
            says(|| assert!(checked.checked_find(&[], 65, 7, 7).is_err())),
            says(|| assert!(numbers.find(&[], 65, 7, 7).is_none())),
            says(|| assert!(numbers.find_list(&[], 65, &[], &[], &mut []).is_err())),
        ] {
            assert_eq!(text, "a fingerprint has at most 64 bits, not 65");
        }
        // There is no room for the fingerprint of the last number: the others are written.
        assert_eq!(numbers.set_prints(hashes, &own, &mut prints[..keys - 1], 64), Ok(false));
        assert!(prints[keys - 1] == 9 && prints[..keys - 1].iter().all(|it| *it == 5));
        let few = &prints[..keys - 1];
        let last = *hashes.iter().find(|it| numbers.get(**it) == Some(keys - 1)).expect("a key");
        assert_eq!(checked.checked_find(few, 64, last, 5), Err(WrongTables));
        assert_eq!(says(|| assert!(numbers.find(few, 64, last, 5).is_none())), WrongTables.to_string());
        let wrong = ListError::WrongTables { wrong: 1 };
        assert_eq!(numbers.find_list(few, 64, hashes, &own, &mut out), Err(wrong));
        assert_eq!(out.iter().filter(|it| **it == WRONG_TABLES).count(), 1);
        assert!(out.iter().all(|it| *it == WRONG_TABLES || *it < keys - 1));
    }};
}

#[test]
fn fingerprints_stand_at_the_numbers_of_their_keys() {
    let random = &mut Random(91);
    for keys in [0, 1, 2, 9, 300] {
        let hashes = drawn(keys, random);
        let plain = PerfectHash::build(hashes.clone()).expect("any");
        let seeded = SeededHash::build(hashes.clone()).expect("any");
        for width in [0, 1, 7, 8, 33, 63, 64] {
            printed!(plain, plain, hashes, width, random);
            printed!(seeded, seeded.view(), hashes, width, random);
            printed!(seeded.view(), seeded.view(), hashes, width, random);
        }
    }
}

#[test]
fn what_is_no_key_is_seldom_found() {
    let random = &mut Random(92);
    let hashes = drawn(20_000, random);
    strangers!(PerfectHash::build(hashes.clone()).expect("any"), hashes, random);
    strangers!(SeededHash::build(hashes.clone()).expect("any"), hashes, random);
}

#[test]
fn what_is_refused() {
    let hashes = drawn(40, &mut Random(93));
    let plain = PerfectHash::build(hashes.clone()).expect("any");
    let seeded = SeededHash::build(hashes.clone()).expect("any");
    refused!(plain, plain, hashes);
    refused!(seeded, *seeded.view(), hashes);
    refused!(*seeded.view(), *seeded.view(), hashes);
    let (plain, seeded) = (PerfectHash::build(vec![]).expect("any"), SeededHash::build(vec![]).expect("any"));
    assert_eq!((plain.set_prints(&[7], &[7], &mut [0], 8), plain.find(&[0], 8, 7, 0)), (Ok(false), None));
    assert_eq!((seeded.set_prints(&[7], &[7], &mut [0], 8), seeded.find(&[0], 8, 7, 0)), (Ok(false), None));
}
