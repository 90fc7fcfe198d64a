//! Small replacements for the crates that the published files use.

/// Maps and sets in ascending order: where the original leaves a tie to chance, the rules ask for ascending colours.
pub mod hashbrown {
    pub use alloc::collections::{BTreeMap as HashMap, BTreeSet as HashSet};

    pub mod hash_map {
        /// A name only: nothing is hashed here.
        #[derive(Debug)]
        pub struct DefaultHashBuilder;
    }
}

/// Logging that checks its arguments and writes nothing.
pub mod log {
    macro_rules! silent {
        ($($argument:tt)*) => {
            if false {
                let _ = format_args!($($argument)*);
            }
        };
    }

    macro_rules! never {
        ($level:expr) => {{
            let _ = $level;
            false
        }};
    }

    pub(crate) use {never as log_enabled, silent as debug, silent as info, silent as warn};

    pub enum Level {
        Info,
    }
}

/// Floats with a total order.
pub mod ordered_float {
    use core::cmp::Ordering;

    #[derive(Clone, Copy, Debug)]
    pub struct OrderedFloat<T>(pub T);

    impl Ord for OrderedFloat<f64> {
        fn cmp(&self, other: &Self) -> Ordering {
            self.0.total_cmp(&other.0)
        }
    }

    impl PartialOrd for OrderedFloat<f64> {
        fn partial_cmp(&self, other: &Self) -> Option<Ordering> {
            Some(self.cmp(other))
        }
    }

    impl PartialEq for OrderedFloat<f64> {
        fn eq(&self, other: &Self) -> bool {
            self.cmp(other).is_eq()
        }
    }

    impl Eq for OrderedFloat<f64> {}
}

/// The queue: each item once, the highest priority first, on a tie the lower item.
pub mod priority_queue {
    use crate::board::{Point, LONGEST_LINE};
    use core::marker::PhantomData;

    /// An item that knows its place in a small table.
    pub trait Placed: Copy + Ord {
        fn place(self) -> usize;
    }

    impl Placed for Point {
        fn place(self) -> usize {
            self.y * LONGEST_LINE + self.x
        }
    }

    const PLACES: usize = LONGEST_LINE * LONGEST_LINE;
    const ABSENT: usize = usize::MAX;

    /// A binary heap that remembers where in it each item stands.
    #[derive(Debug)]
    pub struct PriorityQueue<I, P, H> {
        heap: Vec<(I, P)>,
        position: [usize; PLACES],
        hasher: PhantomData<H>,
    }

    impl<I: Placed, P: Copy + Ord, H> PriorityQueue<I, P, H> {
        pub fn with_default_hasher() -> Self {
            Self {
                heap: Vec::new(),
                position: [ABSENT; PLACES],
                hasher: PhantomData,
            }
        }

        pub fn extend(&mut self, entries: impl IntoIterator<Item = (I, P)>) {
            for (item, priority) in entries {
                self.push(item, priority);
            }
        }

        /// Adds the item; one that is already here takes the new priority.
        fn push(&mut self, item: I, priority: P) {
            let mut at = self.position[item.place()];
            if at == ABSENT {
                at = self.heap.len();
                self.heap.push((item, priority));
                self.position[item.place()] = at;
            } else {
                self.heap[at].1 = priority;
                self.sink(at);
            }
            self.rise(at);
        }

        pub fn pop(&mut self) -> Option<(I, P)> {
            let last = self.heap.len().checked_sub(1)?;
            self.exchange(0, last);
            let first = self.heap.pop()?;
            self.position[first.0.place()] = ABSENT;
            self.sink(0);
            Some(first)
        }

        /// Whether the entry at a comes out before the entry at b.
        fn precedes(&self, a: usize, b: usize) -> bool {
            let (a, b) = (&self.heap[a], &self.heap[b]);
            b.1.cmp(&a.1).then(a.0.cmp(&b.0)).is_lt()
        }

        fn exchange(&mut self, a: usize, b: usize) {
            self.heap.swap(a, b);
            self.position[self.heap[a].0.place()] = a;
            self.position[self.heap[b].0.place()] = b;
        }

        fn rise(&mut self, mut at: usize) {
            while at > 0 && self.precedes(at, (at - 1) / 2) {
                self.exchange(at, (at - 1) / 2);
                at = (at - 1) / 2;
            }
        }

        fn sink(&mut self, mut at: usize) {
            loop {
                let children = 2 * at + 1..self.heap.len().min(2 * at + 3);
                let first = children.fold(at, |best, child| {
                    if self.precedes(child, best) {
                        child
                    } else {
                        best
                    }
                });
                if first == at {
                    return;
                }
                self.exchange(at, first);
                at = first;
            }
        }
    }
}
