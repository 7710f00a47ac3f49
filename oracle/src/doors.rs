//! How the test doors of the crate `probe` answer. A door that can refuse answers 0 and writes through what it is
//! lent, or answers a refusal's number times 2^32 plus its place and leaves all of that as it was; the comparisons
//! look at both. Every door is total: it takes any numbers and any slices, and holds on to none of them. The doors
//! of a part are declared where it is compared.

/// What a door answers for a refusal: a place of more than 32 bits shows as the largest of 32.
pub fn refused(number: u64, place: u64) -> u64 {
    (number << 32) + place.min(u64::from(u32::MAX))
}

/// What a door answers that refuses, and whether all that it was lent is as before.
pub type Back = (u64, bool);

/// What a lent number holds before a call, to see whether a refusal leaves it.
pub const KEPT: f64 = 12345.6789;

/// A door's answer, and the lent number's bits afterwards.
pub type Told = (u64, u64);

/// Asks a door that has one number to write.
pub fn told(call: impl FnOnce(&mut f64) -> u64) -> Told {
    let mut out = KEPT;
    let code = call(&mut out);
    (code, out.to_bits())
}

/// What a door tells that answers `x`.
pub fn is(x: f64) -> Told {
    (0, x.to_bits())
}

/// What a door tells that refuses.
pub fn back(number: u64, place: u64) -> Told {
    (refused(number, place), KEPT.to_bits())
}
