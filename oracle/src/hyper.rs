// SPDX-License-Identifier: Apache-2.0
//! Stands in for the kernel's crate `hyper`: what the original files use of it, and no more. One thread only.

pub mod debug {
    /// The original's stop. It panics here, so that the caller can answer 10.
    #[cold]
    pub fn invariant_failure(what: &str) -> ! {
        panic!("{what}")
    }
}

pub mod sync {
    use core::cell::RefCell;
    use core::marker::PhantomData;

    pub struct InterruptSpinLock<T, Mask> {
        value: RefCell<T>,
        mask: PhantomData<Mask>,
    }

    impl<T, Mask> InterruptSpinLock<T, Mask> {
        pub fn new(value: T) -> Self {
            Self { value: RefCell::new(value), mask: PhantomData }
        }

        pub fn with<R>(&self, run: impl FnOnce(&mut T) -> R) -> R {
            run(&mut self.value.borrow_mut())
        }

        pub fn try_with<R>(&self, run: impl FnOnce(&mut T) -> R) -> Option<R> {
            self.value.try_borrow_mut().ok().map(|mut value| run(&mut value))
        }
    }
}

pub mod mm {
    use core::ops::{Deref, DerefMut};
    use std::sync::Arc;

    pub struct FallibleArc<T>(Arc<T>);

    impl<T> FallibleArc<T> {
        pub fn new(value: T) -> Self {
            Self(Arc::new(value))
        }

        pub const fn allocation_size() -> usize {
            size_of::<T>() + 2 * size_of::<usize>()
        }

        pub fn strong_count(&self) -> usize {
            Arc::strong_count(&self.0)
        }

        pub fn try_into_unique(self) -> Result<UniqueFallibleArc<T>, Self> {
            if self.strong_count() == 1 { Ok(UniqueFallibleArc(self.0)) } else { Err(self) }
        }
    }

    impl<T> Clone for FallibleArc<T> {
        fn clone(&self) -> Self {
            Self(self.0.clone())
        }
    }

    impl<T> Deref for FallibleArc<T> {
        type Target = T;
        fn deref(&self) -> &T {
            &self.0
        }
    }

    /// The only owner of its value.
    pub struct UniqueFallibleArc<T>(Arc<T>);

    impl<T> UniqueFallibleArc<T> {
        pub fn into_shared(self) -> FallibleArc<T> {
            FallibleArc(self.0)
        }

        pub fn into_inner(self) -> T {
            Arc::into_inner(self.0).expect("the only owner")
        }
    }

    impl<T> Deref for UniqueFallibleArc<T> {
        type Target = T;
        fn deref(&self) -> &T {
            &self.0
        }
    }

    impl<T> DerefMut for UniqueFallibleArc<T> {
        fn deref_mut(&mut self) -> &mut T {
            Arc::get_mut(&mut self.0).expect("the only owner")
        }
    }
}
