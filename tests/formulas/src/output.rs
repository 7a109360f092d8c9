//! Writes a set: NAME.qdimacs for each entry, and list.txt with a line per entry: name, family, truth (true, false or ?)
//! and what it is, with tabs between.

use crate::formula::Formula;
use std::collections::HashSet;
use std::fs;
use std::path::Path;

/// One formula of a set. `truth` is given where theory or the game meaning tells it.
pub struct Entry {
    pub name: String,
    pub family: &'static str,
    pub truth: Option<bool>,
    pub says: String,
    pub formula: Formula,
    /// Lines before the `p` line; each starts with `c`.
    pub comments: String,
}

impl Entry {
    pub fn new(name: String, family: &'static str, truth: Option<bool>, says: String, formula: Formula) -> Entry {
        Entry { name, family, truth, says, formula, comments: String::new() }
    }
}

pub fn write(directory: &str, entries: &[Entry]) -> Result<(), String> {
    let directory = Path::new(directory);
    fs::create_dir_all(directory).map_err(|fault| format!("{}: {fault}", directory.display()))?;
    let mut names = HashSet::new();
    let mut list = String::new();
    for entry in entries {
        if !names.insert(entry.name.as_str()) {
            return Err(format!("two formulas named {}", entry.name));
        }
        let text = entry.comments.clone() + &entry.formula.text();
        if !entry.formula.fits() || text.len() > 65536 {
            return Err(format!("{} passes a limit", entry.name));
        }
        let file = directory.join(format!("{}.qdimacs", entry.name));
        fs::write(&file, text).map_err(|fault| format!("{}: {fault}", file.display()))?;
        let truth = match entry.truth {
            Some(true) => "true",
            Some(false) => "false",
            None => "?",
        };
        list.push_str(&format!("{}\t{}\t{truth}\t{}\n", entry.name, entry.family, entry.says));
    }
    let file = directory.join("list.txt");
    fs::write(&file, list).map_err(|fault| format!("{}: {fault}", file.display()))
}
