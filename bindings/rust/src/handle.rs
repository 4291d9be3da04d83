//! A handle: the pointer by which the library knows an object.

use crate::codes::{answer, Code};
use crate::raw;
use std::cell::UnsafeCell;
use std::fmt;
use std::ptr::null_mut;

/// A handle that refers to an object, which goes with it.
///
/// Each call of the library takes the object out of the handle and puts it back, also one that only
/// looks at it. So a shared handle is one that changes. It is neither `Send` nor `Sync`, as the
/// header wants it in the thread that made it.
pub(crate) struct Handle(UnsafeCell<raw::Handle>);

impl Handle {
    /// A handle of the object that `make` makes it refer to.
    ///
    /// # Panics
    /// Where the library that was linked has another interface than the one declared here.
    pub(crate) fn made(make: impl FnOnce(*mut raw::Handle) -> u32) -> Result<Handle, Code> {
        check_interface();
        let handle = Handle(UnsafeCell::new(raw::Handle { at: null_mut() }));
        answer(make(handle.get()))?;
        Ok(handle)
    }

    /// The handle's address, for a call of the library alone. It began as MYSQL_SESSION_NOTHING, no
    /// other code writes to it, and there is no copy of it: what "Handles" wants.
    pub(crate) fn get(&self) -> *mut raw::Handle {
        self.0.get()
    }
}

/// Nothing that a person reads.
impl fmt::Debug for Handle {
    fn fmt(&self, formatter: &mut fmt::Formatter<'_>) -> fmt::Result {
        formatter.write_str("..")
    }
}

impl Drop for Handle {
    fn drop(&mut self) {
        // SAFETY: "Handles": by `get`. No view of the object is left: they borrow from its owner.
        unsafe { raw::mysql_session_free(self.get()) };
    }
}

/// Panics where the library has another interface than the one declared here.
pub(crate) fn check_interface() {
    // SAFETY: the call has no condition.
    let found = unsafe { raw::mysql_session_abi() };
    assert_eq!(
        found,
        raw::ABI,
        "the library has another interface than the one declared here"
    );
}
