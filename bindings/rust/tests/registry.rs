//! With a registry at hand: `GetSize` of `dyn_size_of`, vectors of `aligned-vec`, and `serde`. Nothing without these
//! features.
#![cfg(any(feature = "dyn_size_of", feature = "aligned-vec", feature = "serde"))]
use bitm_proved::*;
#[cfg(feature = "dyn_size_of")]
#[test]
fn sizes() {
    use dyn_size_of::GetSize;
    let a: ArrayWithRank101111 = vec![7; 64].into_boxed_slice().into();
    assert_eq!((a.size_bytes_dyn(), BinaryRankSearch.size_bytes_dyn()), (512 + 8 + 16, 0));
    let c: RankSelect101111<CombinedSampling<ConstCombinedSamplingDensity<7>>> = vec![7; 64].into_boxed_slice().into();
    assert_eq!(c.size_bytes_dyn(), 512 + 8 + 16 + 2 * 4 + 8);
    assert!(RankSimple::<Box<[u64]>>::USES_DYN_MEM);
}
#[cfg(feature = "aligned-vec")]
#[test]
fn aligned() {
    type A = aligned_vec::ABox<[u64], aligned_vec::ConstAlign<64>>;
    let a = A::with_bitwords(5, 3, 4);
    let (r, ones) = RankSelect101111::<BinaryRankSearch, BinaryRankSearch, A>::build(a);
    assert_eq!((ones, r.select(1)), (8, 2));
}
#[cfg(feature = "serde")]
#[test]
fn values_come_back_and_spoilt_ones_are_refused() {
    let index = Index::build(vec![0b1011u64, 7]);
    let text = serde_json::to_string(&index).expect("memory");
    assert_eq!(text, serde_json::to_string(&index.to_stored(128).expect("inside")).expect("memory"));
    let read: Index<Vec<u64>> = serde_json::from_str(&text).expect("whole");
    assert_eq!((read.rank(65), read.select(5), read.try_rank(129)), (4, 66, None));
    let numbers = EliasFano::build(&[2, 3, 5, 900]).expect("sorted");
    let text = serde_json::to_string(&numbers).expect("memory");
    let read: EliasFano = serde_json::from_str(&text).expect("whole");
    assert!(read.iter().eq([2, 3, 5, 900]));
    // The words of a file of version 2 are read too.
    let old = words_from_bytes(include_bytes!("common/sequence.v2")).expect("memory");
    let read: EliasFano = serde_json::from_str(&serde_json::to_string(&old).expect("memory")).expect("whole");
    assert!(read.iter().eq((0..100).map(|i| i * i)));
    // Of the other kind, cut short, with a word of the index spoilt, no list: each is an error.
    let why = serde_json::from_str::<EliasFano>("7").expect_err("a number");
    assert!(why.to_string().contains("expected the words of a file"), "{why}");
    assert!(serde_json::from_str::<Index<Vec<u64>>>(&text).is_err());
    assert!(serde_json::from_str::<EliasFano>("[1,2,3]").is_err());
    let mut words = index.to_stored(128).expect("inside");
    let at = words.iter().position(|it| *it == 0b1011).expect("the first word");
    words[at] = 0b1111;
    let spoilt = serde_json::to_string(&words).expect("memory");
    assert!(serde_json::from_str::<Index<Vec<u64>>>(&spoilt).is_err());
}
