//! The small tools that the published files use: a shared cell, a table filled on demand, and the time.

pub mod rc {
    use alloc::rc::Rc;
    use core::{
        cell::{Ref, RefCell, RefMut},
        fmt,
    };

    pub type ReadRef<'a, T> = Ref<'a, T>;

    /// A value shared by the parts of a solver, one of which may change it at a time.
    pub struct MutRc<T>(Rc<RefCell<T>>);

    impl<T> MutRc<T> {
        pub fn new(value: T) -> Self {
            Self(Rc::new(RefCell::new(value)))
        }

        pub fn read(&self) -> ReadRef<'_, T> {
            self.0.borrow()
        }

        pub fn write(&self) -> RefMut<'_, T> {
            self.0.borrow_mut()
        }
    }

    impl<T> Clone for MutRc<T> {
        fn clone(&self) -> Self {
            Self(Rc::clone(&self.0))
        }
    }

    impl<T: fmt::Debug> fmt::Debug for MutRc<T> {
        fn fmt(&self, f: &mut fmt::Formatter<'_>) -> fmt::Result {
            self.read().fmt(f)
        }
    }
}

pub mod iter {
    /// A table whose entries are worked out when first asked for.
    pub trait PartialEntry {
        type Output;

        fn with_none(size: usize) -> Self;

        fn unwrap_or_insert_with(
            &mut self,
            index: usize,
            make: impl FnOnce() -> Self::Output,
        ) -> Self::Output;
    }

    impl<T: Copy> PartialEntry for Vec<Option<T>> {
        type Output = T;

        fn with_none(size: usize) -> Self {
            vec![None; size]
        }

        fn unwrap_or_insert_with(&mut self, index: usize, make: impl FnOnce() -> T) -> T {
            *self[index].get_or_insert_with(make)
        }
    }
}

pub mod time {
    use crate::clock::Instant;

    pub fn now() -> Option<Instant> {
        Some(Instant::now())
    }
}
