use core::fmt;
use core::ptr;

use typed_headers_sys as sys;

#[cfg(not(feature = "std"))]
use core::cell::RefCell as Lock;
#[cfg(feature = "std")]
use std::sync::Mutex as Lock;

/// A handle of the library.
pub(crate) trait Handle {
    const CLOSED: Self;

    fn close(&mut self);
}

macro_rules! handles {
    ($($name:ident = $free:ident;)*) => {$(
        impl Handle for sys::$name {
            const CLOSED: Self = sys::$name { place: ptr::null_mut(), is_open: false };

            fn close(&mut self) {
                // SAFETY: this is a handle, which the borrow makes this call's alone.
                unsafe { sys::$free(self) };
            }
        }
    )*};
}

handles! {
    Cache = typed_headers_cache_free;
    CorsPolicy = typed_headers_cors_policy_free;
    Pass = typed_headers_pass_free;
    ResourceHandle = typed_headers_resource_handle_free;
    Section = typed_headers_section_free;
}

/// A handle that is closed in the end.
pub(crate) struct Owned<H: Handle>(H);

// SAFETY: a handle has memory, and nothing of the thread that opened it.
unsafe impl<H: Handle> Send for Owned<H> {}

// SAFETY: a shared one is only passed as `*const`, to calls that read what it has and may overlap.
unsafe impl<H: Handle> Sync for Owned<H> {}

impl<H: Handle> Owned<H> {
    pub(crate) fn closed() -> Owned<H> {
        Owned(H::CLOSED)
    }

    /// The handle for a call that only reads it.
    pub(crate) fn shared(&self) -> *const H {
        &self.0
    }

    pub(crate) fn alone(&mut self) -> &mut H {
        &mut self.0
    }
}

impl<H: Handle> Drop for Owned<H> {
    fn drop(&mut self) {
        self.0.close();
    }
}

impl<H: Handle> fmt::Debug for Owned<H> {
    fn fmt(&self, formatter: &mut fmt::Formatter<'_>) -> fmt::Result {
        formatter.write_str("..")
    }
}

/// A handle that each call changes: one call has it at a time.
pub(crate) struct Locked<H: Handle>(Lock<Owned<H>>);

impl<H: Handle> Locked<H> {
    pub(crate) fn new(handle: Owned<H>) -> Locked<H> {
        Locked(Lock::new(handle))
    }

    /// Makes calls with the handle, once no other thread does.
    pub(crate) fn with<T>(&self, calls: impl FnOnce(*mut H) -> T) -> T {
        // (no call unwinds, so a lock that is poisoned has a whole handle)
        #[cfg(feature = "std")]
        let mut held = self.0.lock().unwrap_or_else(std::sync::PoisonError::into_inner);
        #[cfg(not(feature = "std"))]
        let mut held = self.0.borrow_mut();
        calls(held.alone())
    }
}

impl<H: Handle> fmt::Debug for Locked<H> {
    fn fmt(&self, formatter: &mut fmt::Formatter<'_>) -> fmt::Result {
        formatter.write_str("..")
    }
}
