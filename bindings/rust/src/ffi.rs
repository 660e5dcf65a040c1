//! The declarations of `bitm.h`, which `bindgen` writes: `./declarations` does it again, `--check` compares.
#![allow(non_camel_case_types, dead_code, missing_docs)]
#[rustfmt::skip]
pub(crate) mod blocks;
#[rustfmt::skip]
pub(crate) mod hashes;
#[rustfmt::skip]
pub(crate) mod words;
