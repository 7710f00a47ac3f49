//! Copies the files of the original that the port carries over into OUT_DIR, with the few changes that
//! let them compile alone. Each change is a line below; a file that no longer has what a change looks
//! for stops the build.

use std::path::{Path, PathBuf};
use std::{env, fs};

/// A file of the original, as it is changed.
struct File {
    name: String,
    text: String,
}

impl File {
    /// Reads a file. Its own opening comment (`//!`) cannot stand where the copy is included, so it
    /// becomes a plain one.
    fn read(folder: &Path, name: &str) -> File {
        let path = folder.join(name).with_extension("rs");
        println!("cargo:rerun-if-changed={}", path.display());
        let text = fs::read_to_string(&path).unwrap_or_else(|e| panic!("{}: {e}", path.display()));
        File { name: name.to_string(), text: text.replace("//!", "//") }
    }

    /// Puts `new` in the place of `old`, which stands exactly `times` times.
    fn swap(mut self, old: &str, new: &str, times: usize) -> File {
        let found = self.text.matches(old).count();
        assert_eq!(found, times, "{}.rs: `{old}` stands {found} times, not {times}", self.name);
        self.text = self.text.replace(old, new);
        self
    }

    /// Keeps what stands before `mark`.
    fn until(mut self, mark: &str) -> File {
        let at = self.text.find(mark).unwrap_or_else(|| panic!("{}.rs: no `{mark}`", self.name));
        self.text.truncate(at);
        self
    }

    fn write(self, name: &str) {
        let out = PathBuf::from(env::var("OUT_DIR").unwrap());
        fs::write(out.join(name).with_extension("rs"), self.text).unwrap();
    }
}

fn main() {
    println!("cargo:rerun-if-env-changed=U_NESTING_SRC");
    let top = PathBuf::from(env::var("CARGO_MANIFEST_DIR").unwrap()).join("../..");
    let folder = env::var("U_NESTING_SRC").unwrap_or("../shared/docs/src/crates/cutting/src".into());
    let folder = top.join(folder);

    for name in ["config", "cost", "result"] {
        File::read(&folder, name).write(name);
    }

    // Contours come from a card here: what takes them from a nesting result is left out, with its imports.
    File::read(&folder, "contour")
        .until("/// Extracts cut contours")
        .swap("use u_nesting_core::geometry", "// geometry", 1)
        .swap("use u_nesting_core::SolveResult", "// SolveResult", 1)
        .write("contour");

    // A bridge is asked for at a given centre.
    File::read(&folder, "bridge").swap("fn create_bridge(", "pub fn create_bridge(", 1).write("bridge");

    // The pairs come from a card too, so the DAG gets a constructor from a count and pairs. Of its own rules the card has
    // the first; the second, about parts in other parts' holes, is left out.
    File::read(&folder, "hierarchy")
        .swap("if lies_inside(&inner.vertices, &hole.vertices) {", "if false {", 1)
        .swap(
            "impl CuttingDag {",
            "impl CuttingDag { \
             pub fn from_pairs(num_contours: usize, precedences: Vec<(ContourId, ContourId)>) -> Self \
             { Self { num_contours, precedences } }",
            1,
        )
        .write("hierarchy");

    // The search as it is given shows the fault that request 2026-01 mends: a rejected candidate gives back the
    // one held when its turn began. In the copies that ours is held against it gives back what stood there before
    // it: the last one accepted in the turn, or with none the one held. And a point that they find at a perimeter
    // distance goes on to the grid where request 2026-07 asks for it (grid::moved in lib.rs), before anything uses it.
    File::read(&folder, "gtsp").write("given");
    const FOUND: &str = "point_at_distance(vertices, &cumulative, &edge_lengths, target_dist);";
    let mended = || {
        File::read(&folder, "gtsp")
            .swap("solution[pos] = alt_global;", "let before = solution[pos]; solution[pos] = alt_global;", 1)
            .swap("solution[pos] = current_global; // Undo", "solution[pos] = before;", 1)
            .swap(FOUND, &format!("{FOUND} let point = crate::grid::moved(point);"), 1)
    };
    mended().write("gtsp");

    // Where a trial is about to begin the counted limit is asked (count::spent in lib.rs). The clock stays
    // in the copy and is never asked, since the time limit is 0 wherever this copy is called. A candidate that is
    // rejected after another was accepted in its turn is counted (count::rejected).
    mended()
        .swap("since_check += 1;", "if crate::count::spent() { return; }", 2)
        .swap("solution[pos] = before;", "solution[pos] = before; crate::count::rejected(before != current_global);", 1)
        .write("counted");
}
