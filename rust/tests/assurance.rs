//! docs/ASSURANCE.md names only what exists: files, and the laws, functions, definitions, fields, types and constructors that stand
//! in backticks, each in the crate or file that is named directly before it; and must-fail edits. Every edit has a row.
//!
//! The forms that are read, in a table or beside one:
//!
//!     trial/proofs/Rows `row_trial`      declared in that file, below crates/
//!     Rows `row_trial`                   declared in a file of that name
//!     include/luphwezane.h `luph_keep`   a word of that file, outside the crates
//!     trial `span_start`, `measure`      both declared in that crate
//!     `trial::measure`                   the same, for one function
//!     `EditPost.held`                    a field of a record, or a constructor of a type
//!     `refused..`                        some name that begins so
//!     `row_trial`                        declared in some crate, or the name of one
//!
//! What has a space or a bracket in its backticks is code, not a name. A column `edits` has `crate: name, name; crate, crate: name`
//! and `crate: all`.

use std::collections::{BTreeMap, BTreeSet};
use std::fs;
use std::path::{Path, PathBuf};

fn root() -> &'static Path {
    Path::new(env!("CARGO_MANIFEST_DIR")).parent().expect("the repository has a folder rust")
}

fn entries(folder: &Path) -> Vec<PathBuf> {
    let Ok(entries) = fs::read_dir(folder) else { return Vec::new() };
    entries.map(|entry| entry.expect("a folder can be read").path()).collect()
}

fn stem(path: &Path) -> String {
    path.file_stem().expect("a file has a name").to_string_lossy().into_owned()
}

/// What the crates declare, and their must-fail edits.
struct Crates {
    /// The names that each file declares, by `crate/folder/File`. A member stands alone and as `Record.member`.
    files: BTreeMap<String, BTreeSet<String>>,
    edits: BTreeMap<String, BTreeSet<String>>,
}

impl Crates {
    fn read() -> Crates {
        let mut crates = Crates { files: BTreeMap::new(), edits: BTreeMap::new() };
        for folder in entries(&root().join("crates")) {
            let name = stem(&folder);
            for part in ["specs", "proofs", "src"] {
                for file in entries(&folder.join(part)).iter().filter(|file| file.is_file()) {
                    let text = fs::read_to_string(file).expect("a source is text");
                    let declared = if part == "src" { in_rattle(&text) } else { in_antt(&text) };
                    crates.files.insert(format!("{name}/{part}/{}", stem(file)), declared);
                }
            }
            let edits = entries(&folder.join("must-fail")).into_iter().filter(|file| file.extension().is_some_and(|kind| kind == "edit"));
            crates.edits.insert(name, edits.map(|edit| stem(&edit)).collect());
        }
        crates
    }

    /// The files that a word of the text stands for: those with this name, or in a crate, folder or path with this name.
    fn files_of(&self, word: &str) -> Vec<&str> {
        let part = format!("/{}/", word.trim_end_matches('/'));
        self.files.keys().map(String::as_str).filter(|file| format!("/{file}/").contains(&part)).collect()
    }

    /// Whether one of these files declares the name.
    fn declare(&self, files: &[&str], name: &str) -> bool {
        files.iter().any(|file| match name.strip_suffix("..") {
            Some(start) => self.files[*file].range(start.to_string()..).next().is_some_and(|found| found.starts_with(start)),
            None => self.files[*file].contains(name),
        })
    }

    fn has(&self, word_before: Option<&str>, name: &str) -> bool {
        match (name.split_once("::"), word_before) {
            (Some((folder, function)), _) => self.declare(&self.files_of(folder), function),
            (None, Some(path)) if root().join(path).is_file() => {
                let text = fs::read_to_string(root().join(path)).expect("the file is text");
                text.split(|letter: char| !letter.is_alphanumeric() && letter != '_').any(|word| word == name)
            }
            (None, Some(word)) => self.declare(&self.files_of(word), name),
            (None, None) => self.edits.contains_key(name) || self.declare(&self.files.keys().map(String::as_str).collect::<Vec<_>>(), name),
        }
    }
}

/// The first word of a line where a colon follows it, in a module or outside, and the names of records and types; what is indented
/// below one of these is its member.
fn in_antt(text: &str) -> BTreeSet<String> {
    let mut names = BTreeSet::new();
    let mut holder = (0, "");
    for line in text.lines().filter(|line| !line.trim().is_empty() && !line.trim_start().starts_with("--")) {
        let indent = line.len() - line.trim_start().len();
        let mut words = line.split_whitespace().skip_while(|word| ["pub", "abbrev", "unfoldable"].contains(word));
        let (first, second) = (words.next().unwrap_or(""), words.next().unwrap_or(""));
        if indent <= holder.0 {
            holder.1 = "";
        }
        if ["record", "data"].contains(&first) && second != "{" {
            holder = (indent, second);
            names.insert(second.to_string());
        } else if second == ":" {
            names.insert(first.to_string());
            if !holder.1.is_empty() && indent == holder.0 + 2 {
                names.insert(format!("{}.{first}", holder.1));
            }
        }
    }
    names
}

/// The functions, constants, structs and enums, with fields and variants, which are indented by four spaces.
fn in_rattle(text: &str) -> BTreeSet<String> {
    let word = |text: &str| text.split(|letter: char| !letter.is_alphanumeric() && letter != '_').next().unwrap_or("").to_string();
    let (mut names, mut holder) = (BTreeSet::new(), None);
    for line in text.lines() {
        let (inside, line) = (line.starts_with("    ") && !line.starts_with("     "), line.trim_start().trim_start_matches("pub "));
        let line = line.trim_start_matches("extern \"C\" ");
        let kind = line.split(' ').next().unwrap_or("");
        if ["fn", "const", "struct", "enum"].contains(&kind) {
            let name = word(&line[kind.len() + 1..]);
            holder = ["struct", "enum"].contains(&kind).then(|| name.clone());
            names.insert(name);
        } else if line.starts_with('}') && !inside {
            holder = None;
        } else if let (Some(holder), true) = (&holder, inside) {
            let member = word(line);
            names.extend([format!("{holder}.{member}"), member]);
        }
    }
    names
}

/// What is wrong in a cell or a line of text.
fn in_text(crates: &Crates, text: &str, names: &mut usize, wrong: &mut Vec<String>) {
    let mut before: Option<&str> = None;
    for (at, part) in text.split('`').enumerate() {
        if at % 2 == 0 {
            let words = part.split([' ', ',', ';', '(', ')']).map(|word| word.trim_end_matches([':', '.']));
            for path in words.filter(|word| word.contains('/')) {
                let file = [root().to_path_buf(), root().join("crates")].iter().any(|folder| folder.join(path).exists());
                if !file && crates.files_of(path).is_empty() {
                    wrong.push(format!("there is no file {path}"));
                }
            }
            if ![",", "and", ", and", "over"].contains(&part.trim()) {
                let last = part.trim_end_matches([' ', '(', ':']).rsplit([' ', '(', ',', ';']).next().unwrap_or("");
                before = Some(last).filter(|word| root().join(word).is_file() || !crates.files_of(word).is_empty());
            }
        } else if !part.contains([' ', '[', '(']) {
            *names += 1;
            if !crates.has(before, part) {
                let place = before.map_or("no crate declares".to_string(), |word| format!("{word} does not declare"));
                wrong.push(format!("{place} {part}"));
            }
        }
    }
}

/// The edits that a cell names, by crate; what it names besides is wrong.
fn in_edits(crates: &Crates, cell: &str, named: &mut BTreeSet<(String, String)>, wrong: &mut Vec<String>) {
    for group in cell.split(';').map(str::trim).filter(|group| !group.is_empty()) {
        let Some((folders, edits)) = group.split_once(':') else {
            wrong.push(format!("\"{group}\" is not `crate: edit, edit`"));
            continue;
        };
        for folder in folders.split(',').map(str::trim) {
            let there = crates.edits.get(folder).cloned().unwrap_or_default();
            let edits: BTreeSet<String> = match edits.trim() {
                "all" if !there.is_empty() => there.clone(),
                edits => edits.split(',').map(|edit| edit.trim().to_string()).collect(),
            };
            wrong.extend(edits.difference(&there).map(|edit| format!("{folder} has no edit {edit}")));
            named.extend(edits.into_iter().map(|edit| (folder.to_string(), edit)));
        }
    }
}

#[test]
fn what_assurance_names_exists() {
    let crates = Crates::read();
    let text = fs::read_to_string(root().join("docs/ASSURANCE.md")).expect("the file is text");
    let (mut names, mut named, mut wrong) = (0, BTreeSet::new(), Vec::new());
    let mut has_edits = false;
    for (number, line) in text.lines().enumerate() {
        let mut here = Vec::new();
        match line.strip_prefix('|').and_then(|line| line.strip_suffix('|')) {
            None => in_text(&crates, line, &mut names, &mut here),
            Some(row) => {
                let mut cells: Vec<&str> = row.split('|').map(str::trim).collect();
                if text.lines().nth(number + 1).is_some_and(|line| line.starts_with("|---")) {
                    has_edits = cells.last() == Some(&"edits");
                } else if !row.starts_with("---") {
                    let edits = if has_edits { cells.pop().unwrap_or("") } else { "" };
                    in_edits(&crates, edits, &mut named, &mut here);
                    cells.iter().for_each(|cell| in_text(&crates, cell, &mut names, &mut here));
                }
            }
        }
        wrong.extend(here.into_iter().map(|wrong| format!("line {}: {wrong}", number + 1)));
    }
    for (folder, edits) in &crates.edits {
        let unnamed = edits.iter().filter(|edit| !named.contains(&(folder.clone(), (*edit).clone())));
        wrong.extend(unnamed.map(|edit| format!("no row has {folder}: {edit}")));
    }
    assert!(wrong.is_empty(), "docs/ASSURANCE.md:\n{}", wrong.join("\n"));
    assert!(names > 100 && named.len() > 100, "only {names} names and {} edits were read", named.len());
}
