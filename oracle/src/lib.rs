//! What the proved crates are held against: the Rust original, the processor's own root, and a second
//! reading of the paper. What needs the original is compared where its folder is at hand (feature `original`).

pub mod card;
pub mod check;
pub mod coverage;
pub mod doors;
pub mod edges;
pub mod exports;
pub mod feed;
pub mod fuzz;
pub mod generate;
pub mod guard;
pub mod limits;
pub mod random;
pub mod reading;
pub mod root;
pub mod run;

#[cfg(feature = "original")]
pub mod answer;

/// A part that is compared with the original, or in its place a line that says why it is left out.
macro_rules! with_original {
    ($($name:ident)*) => {
        $(
            #[cfg(feature = "original")]
            pub mod $name;
            #[cfg(not(feature = "original"))]
            pub mod $name {
                pub fn compare(_: crate::run::Wanted) -> bool {
                    println!("{}: left out, the original is not at hand", stringify!($name));
                    true
                }
            }
        )*
    };
}
with_original!(cost hierarchy moved candidates bridge table rules start search tour large grid exact);
