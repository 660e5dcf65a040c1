//! An owner, and a borrow of it for as long as it is held.
use crate::errors::NoMemory;
use crate::sys::memory::one;
use alloc::vec::Vec;

/// An owner at an address that does not change. It is never borrowed mutably, so a borrow is valid as long as it lives.
pub(crate) struct Held<O>(Vec<O>);

impl<O> Held<O> {
    pub(crate) fn new(owner: O) -> Result<Self, NoMemory> {
        Ok(Held(one(owner)?))
    }

    pub(crate) fn owner(&self) -> &O {
        &self.0[0]
    }

    pub(crate) fn into_owner(mut self) -> O {
        self.0.remove(0)
    }

    /// What the owner's `as_ref` borrows.
    ///
    /// # Safety
    /// Nobody gets it for longer than `self` lives.
    pub(crate) unsafe fn borrowed<T: ?Sized + 'static>(&self) -> &'static T
    where
        O: AsRef<T>,
    {
        let borrowed: *const T = self.owner().as_ref();
        // SAFETY: the owner is in memory of its own, which does not move with `self`, and is only ever borrowed shared
        // until it is dropped. So the borrow is valid while `self` lives; the caller hands it out for no longer.
        unsafe { &*borrowed }
    }
}
