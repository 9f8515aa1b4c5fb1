//! A shared value whose allocation may be refused. That of `Arc` aborts the program instead.

use std::alloc::{alloc, Layout};
use std::marker::PhantomData;
use std::ops::Deref;
use std::process::abort;
use std::ptr::NonNull;
use std::sync::atomic::{AtomicUsize, Ordering};

struct Inner<T> {
    count: AtomicUsize,
    value: T,
}

/// A reference to a shared value, which is dropped with the last reference.
pub(crate) struct Counted<T> {
    inner: NonNull<Inner<T>>,
    owns: PhantomData<Inner<T>>,
}

// SAFETY: references in several threads share the value, and any of them may be the last one, which drops it.
unsafe impl<T: Send + Sync> Send for Counted<T> {}
// SAFETY: the same: who shares a reference can clone it.
unsafe impl<T: Send + Sync> Sync for Counted<T> {}

impl<T> Counted<T> {
    /// Shares a value, unless the allocation is refused.
    pub fn new(value: T) -> Option<Counted<T>> {
        // SAFETY: the layout has the count, so its size isn't 0.
        let inner = NonNull::new(unsafe { alloc(Layout::new::<Inner<T>>()) }.cast::<Inner<T>>())?;
        // SAFETY: the block was allocated for this, and nobody else knows it.
        unsafe { inner.write(Inner { count: AtomicUsize::new(1), value }) };
        Some(Counted { inner, owns: PhantomData })
    }

    fn inner(&self) -> &Inner<T> {
        // SAFETY: it is there as long as a reference is.
        unsafe { self.inner.as_ref() }
    }
}

impl<T> Deref for Counted<T> {
    type Target = T;

    fn deref(&self) -> &T {
        &self.inner().value
    }
}

impl<T> Clone for Counted<T> {
    fn clone(&self) -> Counted<T> {
        // So many references can only be forgotten ones. One more could bring the count around to 0.
        if self.inner().count.fetch_add(1, Ordering::Relaxed) > usize::MAX / 2 {
            abort();
        }
        Counted { inner: self.inner, owns: PhantomData }
    }
}

impl<T> Drop for Counted<T> {
    fn drop(&mut self) {
        if self.inner().count.fetch_sub(1, Ordering::AcqRel) == 1 {
            // SAFETY: this was the last reference, and the block was allocated with the layout that a box has.
            drop(unsafe { Box::from_raw(self.inner.as_ptr()) });
        }
    }
}

#[cfg(test)]
mod tests {
    use super::Counted;
    use std::sync::atomic::{AtomicU32, Ordering};
    use std::thread;

    /// Counts how often it is dropped.
    struct Dropped<'a>(&'a AtomicU32);

    impl Drop for Dropped<'_> {
        fn drop(&mut self) {
            self.0.fetch_add(1, Ordering::Relaxed);
        }
    }

    #[test]
    fn the_last_reference_drops_the_value_once() {
        let drops = AtomicU32::new(0);
        let first = Counted::new(Dropped(&drops)).expect("there is room");
        let second = first.clone();
        drop(first);
        assert_eq!(drops.load(Ordering::Relaxed), 0);
        thread::scope(|scope| {
            for _ in 0..8 {
                let third = second.clone();
                scope.spawn(move || {
                    for _ in 0..1000 {
                        assert_eq!(third.clone().0.load(Ordering::Relaxed), 0);
                    }
                });
            }
            drop(second);
        });
        assert_eq!(drops.load(Ordering::Relaxed), 1);
    }
}
