//! Lists of queries of shards, which are grouped by shard, part by part.
use super::ShardedIndex;
use crate::errors::ListError;
use crate::ffi::words::*;
use crate::sys::lists::list_answer;
use crate::sys::memory::zeroed;
use crate::sys::OK;

/// Queries of a list that are grouped at once: their order stays in a processor's caches.
const PART: usize = 1 << 17;

type ListCall = unsafe extern "C" fn(
    *const bitm_shards,
    bool,
    *const u64,
    usize,
    *mut u64,
    usize,
    *mut u64,
    usize,
    *mut bitm_list_counts,
) -> u32;

impl ShardedIndex<'_> {
    fn list(&self, call: ListCall, one: bool, queries: &[u64], out: &mut [u64]) -> Result<usize, ListError> {
        if queries.len() != out.len() {
            return Err(ListError::Lengths { queries: queries.len(), room: out.len() });
        }
        let raw = self.raw();
        // Where memory is refused, the queries are not grouped: the answers are the same, and take longer.
        let mut room = zeroed::<u64>(3 * queries.len().min(PART) + self.shards.len() + 1).unwrap_or_default();
        let mut all = bitm_list_counts { missing: 0, wrong: 0 };
        for (from, to) in queries.chunks(PART).zip(out.chunks_mut(PART)) {
            let mut counts = bitm_list_counts { missing: 0, wrong: 0 };
            let (len, room_len) = (from.len(), room.len());
            // SAFETY: the counts and indexes borrow what they point to; the slices are `len` and `room_len` long, and
            // nothing that is written overlaps.
            let status = unsafe {
                call(&raw, one, from.as_ptr(), len, to.as_mut_ptr(), len, room.as_mut_ptr(), room_len, &mut counts)
            };
            if status != OK {
                return Err(ListError::WrongTables { wrong: queries.len() }); // 2^64 - 2 bits or more
            }
            all.missing += counts.missing;
            all.wrong += counts.wrong;
        }
        list_answer(OK, all, queries.len(), queries.len())
    }

    /// Ranks of a list of positions of the joined bits; returns how many have none, written as `NO_ANSWER`. Takes
    /// memory for three numbers a query, of at most 2^17 at a time, and one a shard; where it is refused, the answers
    /// are the same and take longer.
    ///
    /// ```
    /// use bitm_proved::{Index, Queries, ShardedIndex, NO_ANSWER};
    /// let shard = Index::build([7u64]); // 3 bits of 1, then 61 of 0
    /// let bits = ShardedIndex::new(&[shard.view(), shard.view()])?;
    /// let (mut ranks, positions) = ([0; 3], [66, 129, 3]);
    /// assert_eq!(bits.rank_list(&positions, &mut ranks), Ok(1)); // one has none
    /// assert_eq!(ranks, [5, NO_ANSWER as u64, 3]);
    /// # Ok::<(), bitm_proved::BuildError>(())
    /// ```
    pub fn rank_list(&self, positions: &[u64], out: &mut [u64]) -> Result<usize, ListError> {
        self.list(bitm_shards_rank_list, true, positions, out)
    }

    /// As `rank_list`, of 0 bits.
    ///
    /// ```
    /// use bitm_proved::{Index, Queries, ShardedIndex};
    /// let shard = Index::build([7u64]); // 3 bits of 1, then 61 of 0
    /// let bits = ShardedIndex::new(&[shard.view(), shard.view()])?;
    /// let mut ranks = [0; 2];
    /// assert_eq!(bits.rank0_list(&[66, 3], &mut ranks), Ok(0));
    /// assert_eq!(ranks, [61, 0]);
    /// # Ok::<(), bitm_proved::BuildError>(())
    /// ```
    pub fn rank0_list(&self, positions: &[u64], out: &mut [u64]) -> Result<usize, ListError> {
        self.list(bitm_shards_rank_list, false, positions, out)
    }

    /// Positions, in the joined bits, of the 1 bits with the ranks of a list; returns how many have none, written as
    /// `NO_ANSWER`. As `rank_list`.
    ///
    /// ```
    /// use bitm_proved::{Index, Queries, ShardedIndex, NO_ANSWER};
    /// let shard = Index::build([7u64]); // 3 bits of 1, then 61 of 0
    /// let bits = ShardedIndex::new(&[shard.view(), shard.view()])?;
    /// let mut positions = [0; 3];
    /// assert_eq!(bits.select_list(&[3, 9, 0], &mut positions), Ok(1)); // one has none
    /// assert_eq!(positions, [64, NO_ANSWER as u64, 0]);
    /// # Ok::<(), bitm_proved::BuildError>(())
    /// ```
    pub fn select_list(&self, ranks: &[u64], out: &mut [u64]) -> Result<usize, ListError> {
        self.list(bitm_shards_select_list, true, ranks, out)
    }

    /// As `select_list`, of 0 bits.
    ///
    /// ```
    /// use bitm_proved::{Index, Queries, ShardedIndex};
    /// let shard = Index::build([7u64]); // 3 bits of 1, then 61 of 0
    /// let bits = ShardedIndex::new(&[shard.view(), shard.view()])?;
    /// let mut positions = [0; 2];
    /// assert_eq!(bits.select0_list(&[61, 0], &mut positions), Ok(0));
    /// assert_eq!(positions, [67, 3]);
    /// # Ok::<(), bitm_proved::BuildError>(())
    /// ```
    pub fn select0_list(&self, ranks: &[u64], out: &mut [u64]) -> Result<usize, ListError> {
        self.list(bitm_shards_select_list, false, ranks, out)
    }
}
