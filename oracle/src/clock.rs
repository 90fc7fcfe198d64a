//! The clock that counts steps instead of seconds, and what else is noted while a search runs.

use core::cell::Cell;

/// What one run has counted and noted so far.
#[derive(Clone, Copy)]
struct Watch {
    steps: u64,
    first_limit: u8,
    mends: u8,
}

const FRESH: Watch = Watch {
    steps: 0,
    first_limit: 0,
    mends: 0,
};

thread_local! {
    static WATCH: Cell<Watch> = const { Cell::new(FRESH) };
}

fn update(change: impl FnOnce(&mut Watch)) {
    WATCH.with(|cell| {
        let mut watch = cell.get();
        change(&mut watch);
        cell.set(watch);
    });
}

/// Forgets the run before.
pub fn reset() {
    WATCH.with(|cell| cell.set(FRESH));
}

/// Counts one colour assumed in probing, or one guess.
pub fn step() {
    update(|watch| watch.steps += 1);
}

/// Notes a limit that was met (1 grids, 2 steps, 3 depth); the first one stays.
pub fn note_limit(limit: u8) {
    update(|watch| {
        if watch.first_limit == 0 {
            watch.first_limit = limit;
        }
    });
}

/// Notes that the mend of this number acted.
pub fn note_mend(mend: u8) {
    update(|watch| watch.mends |= 1 << (mend - 1));
}

/// The first limit met, 0 if none was.
pub fn first_limit() -> u8 {
    WATCH.with(Cell::get).first_limit
}

/// The mends that acted: bit 0 for M1, up to bit 3 for M4.
pub fn mends() -> u8 {
    WATCH.with(Cell::get).mends
}

/// A moment, told by the number of steps before it.
#[derive(Clone, Copy, Debug)]
pub struct Instant(u64);

impl Instant {
    pub fn now() -> Self {
        Self(WATCH.with(Cell::get).steps)
    }

    pub fn elapsed(&self) -> Elapsed {
        Elapsed(Self::now().0 - self.0)
    }
}

/// The time between two moments, where a second stands for a step.
#[derive(Clone, Copy, Debug)]
pub struct Elapsed(u64);

impl Elapsed {
    pub fn as_secs(self) -> u64 {
        self.0
    }

    /// Only logging asks for it.
    pub fn subsec_micros(self) -> u32 {
        0
    }
}
