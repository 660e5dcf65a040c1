//! Lists of queries: one call of the archive answers a list.
use crate::errors::ListError;
use crate::ffi::words::bitm_list_counts;
use crate::sys::{NONE, OK, WRONG};

/// Makes a list of queries, with one answer each; returns how many have none, written as `NO_ANSWER`. The call gets a
/// pointer to the answers, how many there is room for, and a pointer to the counts.
pub(crate) fn query_list(
    queries: usize,
    out: &mut [u64],
    call: impl FnOnce(*mut u64, usize, *mut bitm_list_counts) -> u32,
) -> Result<usize, ListError> {
    let mut counts = bitm_list_counts { missing: 0, wrong: 0 };
    let status = call(out.as_mut_ptr(), out.len(), &mut counts);
    list_answer(status, counts, queries, out.len())
}

/// The answer of a list of queries.
pub(crate) fn list_answer(
    status: u32,
    counts: bitm_list_counts,
    queries: usize,
    room: usize,
) -> Result<usize, ListError> {
    match status {
        OK if counts.wrong > 0 => Err(ListError::WrongTables { wrong: counts.wrong as usize }),
        OK => Ok(counts.missing as usize),
        _ if queries != room => Err(ListError::Lengths { queries, room }),
        _ => Err(ListError::WrongTables { wrong: queries }),
    }
}

/// Makes a list of queries whose answers end before the first that has none. The call gets a pointer to the answers,
/// how many there is room for, and a pointer to how many it has written; its status says why there are no more.
pub(crate) fn query_items(
    queries: usize,
    out: &mut [u64],
    call: impl FnOnce(*mut u64, usize, *mut u64) -> u32,
) -> Result<&[u64], ListError> {
    let (room, mut written) = (out.len(), 0);
    match call(out.as_mut_ptr(), room, &mut written) {
        OK | NONE => Ok(&out[..written as usize]),
        WRONG => Err(ListError::WrongTables { wrong: 1 }),
        _ => Err(ListError::Lengths { queries, room }),
    }
}

/// How many pairs two lists are.
pub(crate) fn pairs(first: usize, second: usize) -> Result<usize, ListError> {
    if first != second {
        return Err(ListError::Pairs { first, second });
    }
    Ok(first)
}
