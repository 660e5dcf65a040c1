//! Requests 2^40 bits, which cannot be had under `ulimit -v 1000000`: that is an error, and the program goes on.
use bitm_proved::{BitVec, Index};

fn main() {
    match Box::<[u64]>::try_with_zeroed_bits(1 << 40) {
        Ok(words) => println!("an index over {} bits", 64 * Index::build(words).into_owner().len()),
        Err(why) => println!("2^40 bits: {why}"),
    }
}
