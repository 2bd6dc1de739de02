//! Writes what `speed` measures as streams, as `brinewatch` reads them: `streams FOLDER`, a file for each case.

use comparison::cases;
use std::path::Path;

fn main() {
    let folder = std::env::args().nth(1).expect("a folder");
    for case in cases::all() {
        let file = Path::new(&folder).join(&case.name);
        std::fs::write(&file, case.stream()).unwrap_or_else(|error| panic!("{}: {error}", file.display()));
    }
}
