//! Writes an index and a sequence into the first folder, and reads those of all: what other languages wrote too.
use bitm_proved::{
    bytes_of, CombinedSampling, ConstCombinedSamplingDensity, EliasFano, Index, Queries, Rank, RankSelect101111,
    Select, Select0,
};
use std::{env, error::Error, fs, path::Path};

const BITS: usize = 100_001;

fn bit(i: usize) -> bool {
    i * i % 7 < 2 || i % 1000 < 100
}

fn numbers() -> Vec<u64> {
    (0..3000).map(|i| 1000 * i + i * i % 1000).collect()
}

fn write(folder: &Path) -> Result<(), Box<dyn Error>> {
    type Sampled = CombinedSampling<ConstCombinedSamplingDensity<9>>;
    let word = |w: usize| (64 * w..BITS.min(64 * w + 64)).fold(0, |all, i| all | u64::from(bit(i)) << (i % 64));
    let words: Vec<u64> = (0..BITS.div_ceil(64)).map(word).collect();
    let (index, _) = RankSelect101111::<Sampled, Sampled, _>::build(words);
    fs::write(folder.join("index"), bytes_of(&index.to_stored(BITS)?))?;
    let sequence = EliasFano::build(&numbers())?;
    fs::write(folder.join("sequence"), bytes_of(&sequence.to_stored()?))?;
    Ok(())
}

fn read(folder: &Path) -> Result<(), Box<dyn Error>> {
    let index = Index::read(folder.join("index"))?;
    let sequence = EliasFano::read(folder.join("sequence"))?;
    assert!(index.check() && sequence.check() && index.view().len() == BITS);
    let (mut ones, mut zeros) = (0, 0);
    for i in 0..BITS {
        assert_eq!(index.rank(i), ones);
        let (found, before) = match bit(i) {
            true => (index.select(ones), &mut ones),
            false => (index.select0(zeros), &mut zeros),
        };
        assert_eq!(found, i);
        *before += 1;
    }
    assert!(sequence.iter().eq(numbers()));
    Ok(())
}

fn main() -> Result<(), Box<dyn Error>> {
    let folders: Vec<String> = env::args().skip(1).collect();
    if let Some(own) = folders.first() {
        write(Path::new(own))?;
    }
    folders.iter().try_for_each(|it| read(Path::new(it)))
}
