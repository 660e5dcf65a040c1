//! Files of format version 2, which earlier releases wrote: an index or a sequence after a header. They are read alone.
use crate::errors::StoredError;
use crate::ffi::words::*;
use crate::sys::kinds::Kind;
use crate::sys::memory::halves;
use crate::sys::sequence::SequenceView;
use crate::sys::view::{IndexView, Samples};
use crate::sys::OK;

fn empty() -> bitm_stored {
    let none = bitm_span { at: 0, len: 0 };
    bitm_stored {
        mark: 0,
        kind: 0,
        len: 0,
        width: 0,
        size: 0,
        ones_log2: 0,
        zeros_log2: 0,
        words: none,
        upper: none,
        lower: none,
        low: none,
        starts: none,
        starts0: none,
        samples: none,
        samples0: none,
        checksum: 0,
    }
}

fn header(file: &[u64]) -> Option<bitm_stored> {
    let mut out = empty();
    // SAFETY: a slice, and room for a header.
    let status = unsafe { bitm_stored_read(file.as_ptr(), file.len(), &mut out) };
    (status == OK).then_some(out)
}

fn held(header: &bitm_stored) -> Kind {
    match header.kind == u64::from(BITM_STORED_INDEX) {
        true => Kind::Index,
        false => Kind::Sequence,
    }
}

/// What a file holds.
pub(crate) fn kind_of(file: &[u64]) -> Option<Kind> {
    header(file).as_ref().map(held)
}

/// The header of a file of a kind.
fn header_of(file: &[u64], kind: Kind) -> Result<bitm_stored, StoredError> {
    header(file).filter(|it| held(it) == kind).ok_or_else(|| kind.refused(file))
}

/// The numbers of a span.
fn part(file: &[u64], span: bitm_span) -> Result<&[u64], StoredError> {
    let rest = file.get((span.at / 8) as usize..);
    rest.and_then(|it| it.get(..span.len as usize)).ok_or(StoredError::NotWhole)
}

fn samples(file: &[u64], log2: u64, starts: bitm_span, of: bitm_span) -> Result<Option<Samples<'_>>, StoredError> {
    if log2 == 0 {
        return Ok(None);
    }
    let (at, len) = (of.at, of.len.div_ceil(2));
    let all = halves(part(file, bitm_span { at, len })?);
    Ok(Some(Samples { samples: &all[..of.len as usize], starts: part(file, starts)?, log2: log2 as u32 }))
}

/// The index of a file.
pub(crate) fn index_of(file: &[u64]) -> Result<IndexView<'_>, StoredError> {
    let of = header_of(file, Kind::Index)?;
    let (words, upper, lower) = (part(file, of.words)?, part(file, of.upper)?, part(file, of.lower)?);
    let view = IndexView::new(words, of.len as usize, upper, lower);
    let mut view = view.map_err(|_| StoredError::NotWhole)?;
    let kept =
        [samples(file, of.ones_log2, of.starts, of.samples)?, samples(file, of.zeros_log2, of.starts0, of.samples0)?];
    for (one, kept) in [true, false].into_iter().zip(kept) {
        if let Some(kept) = kept {
            view = view.with_samples(one, kept);
        }
    }
    Ok(view)
}

/// The sequence of a file.
pub(crate) fn sequence_of(file: &[u64]) -> Result<SequenceView<'_>, StoredError> {
    let of = header_of(file, Kind::Sequence)?;
    let (low, words) = (part(file, of.low)?, part(file, of.words)?);
    let parts = [low, words, part(file, of.upper)?, part(file, of.lower)?];
    SequenceView::new(of.len as usize, of.width, parts).map_err(|_| StoredError::NotWhole)
}
