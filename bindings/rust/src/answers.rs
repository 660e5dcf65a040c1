//! Which types answer: views and owners, and what points to them.
use crate::errors::sure;
use crate::queries::Queries;
use crate::rank::{Rank, Select, Select0};
use crate::rank_select::RankSelect101111;
use crate::select::SelectionStrategy;
use crate::sys::index::Index;
use crate::sys::memory::prefetch;
use crate::sys::view::IndexView;
use alloc::boxed::Box;
use alloc::sync::Arc;
use core::ops::Deref;

impl Queries for IndexView<'_> {
    #[inline(always)]
    fn view(&self) -> IndexView<'_> {
        *self
    }
    #[inline(always)]
    fn query<R>(&self, with: impl FnOnce(&IndexView<'_>) -> R) -> R {
        with(self)
    }
}

impl<O> Queries for Index<O> {
    #[inline(always)]
    fn view(&self) -> IndexView<'_> {
        *self.as_view()
    }
    #[inline(always)]
    fn query<R>(&self, with: impl FnOnce(&IndexView<'_>) -> R) -> R {
        with(self.as_view())
    }
}

impl<S: SelectionStrategy, S0: SelectionStrategy, BV: Deref<Target = [u64]>> Queries for RankSelect101111<S, S0, BV> {
    #[inline(always)]
    fn view(&self) -> IndexView<'_> {
        self.sampled()
    }
}

/// Queries of a view, and of its owner, that panic where the tables turn out to be wrong, each by one of the view that
/// returns an error then.
macro_rules! answers {
    ($view:ident, $kind:ident; $(
        $(#[$attribute:meta])*
        pub fn $name:ident$(<$life:lifetime>)?(&self $(, $argument:ident: $type:ty)*) -> $answer:ty = $checked:ident;
    )*) => {
        impl $view<'_> { $(
            $(#[$attribute])*
            #[inline]
            #[track_caller]
            pub fn $name$(<$life>)?(&self $(, $argument: $type)*) -> $answer {
                $crate::errors::sure(self.$checked($($argument),*))
            }
        )* }

        impl<O> $kind<O> { $(
            $(#[$attribute])*
            #[inline]
            #[track_caller]
            pub fn $name$(<$life>)?(&self $(, $argument: $type)*) -> $answer {
                $crate::errors::sure(self.view().$checked($($argument),*))
            }
        )* }
    };
}
pub(crate) use answers;

/// Calls that an owner passes on to its view.
macro_rules! by_view {
    ($kind:ident; $(
        $(#[$attribute:meta])*
        pub fn $name:ident$(<$life:lifetime>)?(&self $(, $argument:ident: $type:ty)* $(,)?) -> $answer:ty;
    )*) => {
        impl<O> $kind<O> { $(
            $(#[$attribute])*
            #[inline]
            pub fn $name$(<$life>)?(&self $(, $argument: $type)*) -> $answer {
                self.view().$name($($argument),*)
            }
        )* }
    };
}
pub(crate) use by_view;

macro_rules! answers_by_view {
    ($kind:ty, $($generic:tt)*) => {
        impl $($generic)* Rank for $kind {
            #[inline]
            #[track_caller]
            fn try_rank(&self, index: usize) -> Option<usize> {
                sure(self.checked_rank(index))
            }
            #[inline]
            #[track_caller]
            fn try_rank0(&self, index: usize) -> Option<usize> {
                sure(self.checked_rank0(index))
            }
            fn prefetch(&self, index: usize) {
                let view = self.view();
                prefetch(view.lower(), index / 2048);
                prefetch(view.upper(), index >> 32);
                prefetch(view.words(), index / 64);
            }
        }
        impl $($generic)* Select for $kind {
            #[inline]
            #[track_caller]
            fn try_select(&self, rank: usize) -> Option<usize> {
                sure(self.checked_select(rank))
            }
        }
        impl $($generic)* Select0 for $kind {
            #[inline]
            #[track_caller]
            fn try_select0(&self, rank: usize) -> Option<usize> {
                sure(self.checked_select0(rank))
            }
        }
    };
}
answers_by_view!(IndexView<'_>,);
answers_by_view!(Index<O>, <O>);

macro_rules! answers_behind {
    ($($kind:ty),*) => { $(
        impl<T: Rank + ?Sized> Rank for $kind {
            #[inline]
            #[track_caller]
            fn try_rank(&self, index: usize) -> Option<usize> {
                (**self).try_rank(index)
            }
            #[inline]
            #[track_caller]
            fn try_rank0(&self, index: usize) -> Option<usize> {
                (**self).try_rank0(index)
            }
            #[inline]
            fn prefetch(&self, index: usize) {
                (**self).prefetch(index)
            }
        }
        impl<T: Select + ?Sized> Select for $kind {
            #[inline]
            #[track_caller]
            fn try_select(&self, rank: usize) -> Option<usize> {
                (**self).try_select(rank)
            }
        }
        impl<T: Select0 + ?Sized> Select0 for $kind {
            #[inline]
            #[track_caller]
            fn try_select0(&self, rank: usize) -> Option<usize> {
                (**self).try_select0(rank)
            }
        }
    )* };
}
answers_behind!(&T, Box<T>, Arc<T>);
