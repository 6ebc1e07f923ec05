//! The samples of the repository.

use crate::proved::compare;
use std::path::PathBuf;

#[test]
fn samples() {
    let folder = concat!(env!("CARGO_MANIFEST_DIR"), "/../samples");
    let files = std::fs::read_dir(folder).expect("the folder samples");
    let files = files.map(|file| file.expect("a file").path());
    let is_text = |path: &PathBuf| path.extension().is_some_and(|e| e == "txt");
    let mut files: Vec<PathBuf> = files.filter(is_text).collect();
    files.sort();
    assert!(!files.is_empty(), "no samples");
    for file in files {
        let name = file.file_name().unwrap_or_default();
        println!("| {}", name.display());
        compare(&std::fs::read(file).expect("a sample"));
    }
}
