//! Where the stored sheets are.

use crate::reader::read;
use crate::sheet::{Form, Sheet};
use std::path::{Path, PathBuf};

/// The folder of the stored sheets, from this package; NATIVE_DATA may name another.
const FOLDER: &str = concat!(env!("CARGO_MANIFEST_DIR"), "/../crates/stored/data");

/// There are at least so many.
pub const LEAST_STORED: usize = 100;

/// A sheet's text beside its printed plan.
pub struct Stored {
    /// The file's name without its ending.
    pub name: String,
    pub text: Vec<u8>,
    pub plan: String,
}

/// The stored sheets, in order.
pub fn stored_sheets() -> Vec<Stored> {
    sheets_in(Path::new(&std::env::var("NATIVE_DATA").unwrap_or(FOLDER.to_string())))
}

/// The stored sheet of this number, which can be read.
pub fn stored_sheet(number: u32) -> Sheet {
    let numbered = |stored: &Stored| stored.name.starts_with(&format!("{number:03}-"));
    let stored = stored_sheets().into_iter().find(numbered).unwrap_or_else(|| panic!("no sheet {number} is stored"));
    read(&stored.text, Form::of(&stored.text)).expect("a good text").sheet
}

/// The sheets of a folder, in order.
pub fn sheets_in(folder: &Path) -> Vec<Stored> {
    let entries = std::fs::read_dir(folder).unwrap_or_else(|error| panic!("{}: {error}", folder.display()));
    let mut paths: Vec<PathBuf> = entries.map(|entry| entry.expect("an entry").path()).collect();
    paths.retain(|path| path.extension().is_some_and(|ending| ending == "sheet"));
    paths.sort();
    paths.iter().map(|path| stored_at(path)).collect()
}

fn stored_at(path: &Path) -> Stored {
    let content = |path: &Path| std::fs::read(path).unwrap_or_else(|error| panic!("{}: {error}", path.display()));
    Stored {
        name: path.file_stem().unwrap_or_default().to_string_lossy().into_owned(),
        text: content(path),
        plan: String::from_utf8(content(&path.with_extension("plan"))).expect("a printed plan is ASCII"),
    }
}
