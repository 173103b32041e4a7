//! The macros of the folder `examples`, which are there to be read and tried.

use std::fs;
use std::path::{Path, PathBuf};

/// A macro of the folder, and the lines stored beside it.
pub struct Example {
    /// The name of its two files without their extensions.
    pub name: String,
    /// The text of the macro: `NAME.macro`.
    pub text: String,
    /// What the verdict program prints for it: `NAME.verdict`.
    pub printed: String,
}

impl Example {
    /// The example whose macro stands in this file.
    fn read(path: &Path) -> Example {
        let name = path.file_stem().expect("a name").to_string_lossy().into_owned();
        let text = fs::read_to_string(path).expect("a text");
        let printed = fs::read_to_string(path.with_extension("verdict")).expect("lines beside the macro");
        Example { name, text, printed }
    }
}

/// All of them, by name. The folder holds nothing but macros and their lines.
pub fn example_macros() -> Vec<Example> {
    let folder = Path::new(env!("CARGO_MANIFEST_DIR")).join("../../examples");
    let files = fs::read_dir(folder).expect("the folder is there");
    let mut paths: Vec<PathBuf> = files.map(|file| file.expect("an entry").path()).collect();
    paths.sort();
    let macros = paths.iter().filter(|path| path.extension().is_some_and(|extension| extension == "macro"));
    let examples: Vec<Example> = macros.map(|path| Example::read(path)).collect();
    assert_eq!(paths.len(), 2 * examples.len(), "{paths:?}");
    examples
}
