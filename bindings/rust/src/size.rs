//! The number of bytes that a value owns beside itself: by the trait of the crate `dyn_size_of`, with the feature of
//! that name.
use crate::density::{AdaptiveCombinedSamplingDensity, CombinedSamplingDensity, ConstCombinedSamplingDensity};
use crate::rank_select::{RankSelect101111, RankSimple};
use crate::select::{BinaryRankSearch, CombinedSampling};
use dyn_size_of::GetSize;

impl GetSize for BinaryRankSearch {}
impl<const VALUE_LOG2: u8> GetSize for ConstCombinedSamplingDensity<VALUE_LOG2> {}
impl<const MAX_RESULT: u8> GetSize for AdaptiveCombinedSamplingDensity<MAX_RESULT> {}

impl<D: CombinedSamplingDensity> GetSize for CombinedSampling<D>
where
    D::SamplingDensity: GetSize,
{
    fn size_bytes_dyn(&self) -> usize {
        self.bytes()
    }
    const USES_DYN_MEM: bool = true;
}

impl<S: GetSize, S0: GetSize, BV: GetSize> GetSize for RankSelect101111<S, S0, BV> {
    fn size_bytes_dyn(&self) -> usize {
        let tables = size_of_val(&*self.l1ranks) + size_of_val(&*self.l2ranks);
        let support = self.select_support().size_bytes_dyn();
        let support0 = self.select0_support().size_bytes_dyn();
        self.content.size_bytes_dyn() + tables + support + support0
    }
    const USES_DYN_MEM: bool = true;
}

impl<BV: GetSize> GetSize for RankSimple<BV> {
    fn size_bytes_dyn(&self) -> usize {
        self.0.size_bytes_dyn()
    }
    const USES_DYN_MEM: bool = true;
}
