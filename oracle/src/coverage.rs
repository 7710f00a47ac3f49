//! Which edges of the archives' code an input reached. With the feature `covered` the archives are those of
//! `make fuzz`: the compiler has put a byte at each edge that counts how often it is passed.

use std::cell::UnsafeCell;
use std::sync::atomic::{AtomicUsize, Ordering};

static START: AtomicUsize = AtomicUsize::new(0);
static END: AtomicUsize = AtomicUsize::new(0);

/// The archives call this before `main` with the place of their counters.
#[cfg(feature = "covered")]
#[unsafe(no_mangle)]
extern "C" fn __sanitizer_cov_8bit_counters_init(start: *mut u8, end: *mut u8) {
    START.store(start as usize, Ordering::Relaxed);
    END.store(end as usize, Ordering::Relaxed);
}

/// The counters, and for each edge a bit for every size of count that was seen.
pub struct Coverage {
    counters: &'static [UnsafeCell<u8>],
    seen: Vec<u8>,
}

impl Coverage {
    pub fn begin() -> Coverage {
        let (start, end) = (START.load(Ordering::Relaxed), END.load(Ordering::Relaxed));
        // the archives' counters live as long as the program; only this thread calls the archives
        let counters = match end - start {
            0 => &[][..],
            size => unsafe { std::slice::from_raw_parts(start as *const UnsafeCell<u8>, size) },
        };
        Coverage { counters, seen: vec![0; counters.len()] }
    }

    pub fn kind(&self) -> &'static str {
        if self.counters.is_empty() { "blind: the archives do not count" } else { "led by what the archives count" }
    }

    /// Every count back to 0.
    pub fn clear(&mut self) {
        self.counters.iter().for_each(|count| unsafe { *count.get() = 0 });
    }

    /// Did the input pass an edge, or so often, as none before it?
    pub fn found(&mut self) -> bool {
        let mut new = false;
        for (count, seen) in self.counters.iter().zip(&mut self.seen) {
            let size = match unsafe { *count.get() } {
                0 => 0,
                1 => 1,
                2 => 2,
                3 => 4,
                4..=7 => 8,
                8..=15 => 16,
                16..=31 => 32,
                32..=127 => 64,
                _ => 128,
            };
            new |= size & !*seen != 0;
            *seen |= size;
        }
        new
    }

    pub fn told(&self) -> String {
        let reached = self.seen.iter().filter(|&&seen| seen != 0).count();
        format!("{reached} of {} edges reached", self.seen.len())
    }
}
