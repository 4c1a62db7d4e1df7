//! The edits as they are written, in the manner of the must-fail edits of the
//! crates: what is wrong with the panel, the paper's sentence, and a text of
//! `fast` with what stands in its place.
//!
//!     # what is wrong with this panel
//!     paper: the sentence that it breaks
//!     file: the file below fast/src
//!     old: an expression or whole statements that stand there once
//!     new: what is done instead
//!
//! `arm:` in place of `new:` is an arm of a `match` that is put before the old
//! one, with SPOILT in its guard. `old:`, `new:` and `arm:` may have several
//! lines, `file:` to `new:` may come again. `unseen:` says why no list can show it.
//! `suite:` names the suite whose lists tell it apart; before the first panel of a
//! file it holds for all that name no other.

use std::fs;
use std::path::{Path, PathBuf};

pub struct Edit {
    pub file: String,
    pub old: String,
    pub new: String,
    pub is_arm: bool,
}

pub struct Spoilt {
    /// The file's name: what the edits of one file are about.
    pub subject: String,
    pub wrong: String,
    pub paper: String,
    pub unseen: Option<String>,
    pub suite: String,
    pub edits: Vec<Edit>,
}

pub fn read_all(folder: &Path) -> Vec<Spoilt> {
    let mut paths: Vec<PathBuf> = fs::read_dir(folder)
        .expect("the folder of edits")
        .map(|entry| entry.expect("an entry of the folder").path())
        .collect();
    paths.sort();
    let mut all: Vec<Spoilt> = Vec::new();
    for path in paths {
        let subject = path.file_stem().expect("a file").to_string_lossy();
        let text = super::read(&path);
        let mut file = File {
            subject: subject.to_string(),
            suite: String::new(),
            begins: all.len(),
        };
        for (index, line) in text.lines().enumerate() {
            if let Err(wrong) = take_line(&mut all, &mut file, line) {
                panic!("{}, line {}: {wrong}", path.display(), index + 1);
            }
        }
    }
    for spoilt in &all {
        let whole = |edit: &Edit| !edit.old.is_empty() && !edit.new.is_empty();
        assert!(
            !spoilt.paper.is_empty()
                && spoilt.unseen.is_some() == spoilt.suite.is_empty()
                && !spoilt.edits.is_empty()
                && spoilt.edits.iter().all(whole),
            "not whole: {}",
            spoilt.wrong
        );
    }
    all
}

/// What holds for all panels of a file.
struct File {
    subject: String,
    suite: String,
    /// How many panels stand in the files before it.
    begins: usize,
}

fn take_line(all: &mut Vec<Spoilt>, file: &mut File, line: &str) -> Result<(), String> {
    if line.trim().is_empty() {
        return Ok(());
    }
    if let Some(wrong) = line.strip_prefix("# ") {
        all.push(Spoilt {
            subject: file.subject.clone(),
            wrong: wrong.to_string(),
            paper: String::new(),
            unseen: None,
            suite: file.suite.clone(),
            edits: Vec::new(),
        });
        return Ok(());
    }
    let (key, text) = line.split_once(':').ok_or("no `key: text`")?;
    let text = text.trim();
    if key == "suite" && all.len() == file.begins {
        file.suite = text.to_string();
        return Ok(());
    }
    let spoilt = all.last_mut().ok_or("no `# ...` before it")?;
    match key {
        "paper" => spoilt.paper = text.to_string(),
        "unseen" => spoilt.unseen = Some(text.to_string()),
        "suite" => spoilt.suite = text.to_string(),
        "file" => spoilt.edits.push(Edit {
            file: text.to_string(),
            old: String::new(),
            new: String::new(),
            is_arm: false,
        }),
        "old" | "new" | "arm" => {
            let edit = spoilt.edits.last_mut().ok_or("no `file: ...` before it")?;
            edit.is_arm |= key == "arm";
            let place = match key {
                "old" => &mut edit.old,
                _ => &mut edit.new,
            };
            *place += text;
            place.push('\n');
        }
        _ => return Err(format!("unknown key `{key}`")),
    }
    Ok(())
}
