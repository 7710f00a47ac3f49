//! Memory between two pages that nobody may touch: a read or write outside a slice at its edge stops the run.

const PAGE: usize = 4096;
/// Guard pages are as large as the largest page that Linux uses on the machines at hand.
const GUARD: usize = 16 * PAGE;

unsafe extern "C" {
    fn mmap(at: *mut u8, size: usize, protection: i32, flags: i32, file: i32, offset: i64) -> *mut u8;
    fn mprotect(at: *mut u8, size: usize, protection: i32) -> i32;
    fn munmap(at: *mut u8, size: usize) -> i32;
}

const READ_WRITE: i32 = 3;
const PRIVATE_ANONYMOUS: i32 = 0x22;

pub struct Guarded {
    base: *mut u8,
    size: usize,
}

impl Guarded {
    /// Room for `size` bytes.
    pub fn new(size: usize) -> Guarded {
        let size = size.next_multiple_of(GUARD);
        // Fresh memory of its own, its first and last pages closed.
        let base = unsafe {
            let base = mmap(std::ptr::null_mut(), size + 2 * GUARD, READ_WRITE, PRIVATE_ANONYMOUS, -1, 0);
            assert_eq!(mprotect(base, GUARD, 0), 0);
            assert_eq!(mprotect(base.add(GUARD + size), GUARD, 0), 0);
            base
        };
        Guarded { base, size }
    }

    /// A copy of `bytes` that ends, or else begins, at a guard page.
    pub fn lend(&mut self, bytes: &[u8], at_end: bool) -> &mut [u8] {
        assert!(bytes.len() <= self.size);
        let at = GUARD + if at_end { self.size - bytes.len() } else { 0 };
        // Within the open pages, and nobody else has them while `self` is borrowed.
        let lent = unsafe { std::slice::from_raw_parts_mut(self.base.add(at), bytes.len()) };
        lent.copy_from_slice(bytes);
        lent
    }
}

impl Drop for Guarded {
    fn drop(&mut self) {
        unsafe { munmap(self.base, self.size + 2 * GUARD) };
    }
}

#[test]
fn what_is_lent_is_what_was_given() {
    let mut guarded = Guarded::new(100);
    for at_end in [false, true] {
        assert_eq!(guarded.lend(b"card", at_end), b"card");
    }
}
