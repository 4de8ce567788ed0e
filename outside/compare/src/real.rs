//! The GSUB tables of real fonts in compare/gsub, whose README says whence, and
//! those of every lookup type in its folder `whole`, which has its own.

use std::fs;

const FOLDER: &str = concat!(env!("CARGO_MANIFEST_DIR"), "/gsub");
const WHOLE: &str = concat!(env!("CARGO_MANIFEST_DIR"), "/gsub/whole");

/// The name and the bytes of a table.
pub type Named = (String, Vec<u8>);

/// Those of single substitutions, and those that are refused as such, by name.
pub fn tables() -> Vec<Named> {
    tables_in(FOLDER)
}

/// Those of every lookup type.
pub fn whole_tables() -> Vec<Named> {
    tables_in(WHOLE)
}

fn tables_in(folder: &str) -> Vec<Named> {
    let entries = fs::read_dir(folder).expect("the folder is there");
    let paths = entries.map(|entry| entry.expect("an entry").path());
    let mut tables: Vec<Named> = paths
        .filter(|path| path.extension().is_some_and(|end| end == "gsub"))
        .map(|path| {
            let name = path.file_name().expect("a file").to_string_lossy();
            (name.into_owned(), fs::read(&path).expect("a table"))
        })
        .collect();
    tables.sort();
    tables
}

/// What says whence they are.
pub fn readme() -> String {
    readme_in(FOLDER)
}

pub fn whole_readme() -> String {
    readme_in(WHOLE)
}

fn readme_in(folder: &str) -> String {
    fs::read_to_string(format!("{folder}/README.md")).expect("a README")
}
