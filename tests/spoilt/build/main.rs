//! Makes one panel out of the sources of `fast` and the edits of `edits/`: it
//! is `fast` as long as no edit is switched on, and the spoilt panel of that
//! edit otherwise.
//!
//! The sources of `fast` stay as they are: the panel that is timed and compared
//! pays nothing for its spoilt versions, and each of these is read as what
//! it is, an old text and a new one. All of them are compiled at once.

mod edits;
mod weave;

use std::path::{Path, PathBuf};
use std::{env, fs};

use edits::Spoilt;

fn main() {
    println!("cargo::rerun-if-changed=edits");
    println!("cargo::rerun-if-changed=../fast/src");
    let written = PathBuf::from(env::var("OUT_DIR").expect("cargo sets it"));
    let spoilt = edits::read_all(Path::new("edits"));
    write(&written.join("panel.rs"), &panel(&spoilt));
    write(&written.join("table.rs"), &table(&spoilt));
}

fn read(path: &Path) -> String {
    fs::read_to_string(path).unwrap_or_else(|error| panic!("{}: {error}", path.display()))
}

fn write(path: &Path, text: &str) {
    fs::write(path, text).unwrap_or_else(|error| panic!("{}: {error}", path.display()));
}

/// All modules of `fast` in one text, as an `include!` takes it.
fn panel(spoilt: &[Spoilt]) -> String {
    let folder = Path::new("../fast/src");
    let mut text = String::new();
    let mut files = Vec::new();
    for line in read(&folder.join("lib.rs")).lines() {
        let words: Vec<&str> = line.trim_end_matches(';').split(' ').collect();
        match words[..] {
            // no inner comment may stand in the middle of a crate
            ["//!", ..] => {}
            ["mod", name] | ["pub", "mod", name] => {
                let file = format!("{name}.rs");
                let source = weave::weave(&file, &read(&folder.join(&file)), spoilt);
                text += &format!("pub mod {name} {{\n{source}}}\n");
                files.push(file);
            }
            _ => text += &format!("{line}\n"),
        }
    }
    for edit in spoilt.iter().flat_map(|spoilt| &spoilt.edits) {
        assert!(files.contains(&edit.file), "fast has no {}", edit.file);
    }
    text
}

/// What the program says of each spoilt panel.
fn table(spoilt: &[Spoilt]) -> String {
    let mut text = String::from("pub const ALL: &[Spoilt] = &[\n");
    for Spoilt {
        subject,
        wrong,
        paper,
        unseen,
        suite,
        ..
    } in spoilt
    {
        text += &format!(
            "Spoilt {{ subject: {subject:?}, wrong: {wrong:?}, paper: {paper:?}, unseen: {unseen:?}, suite: {suite:?} }},\n"
        );
    }
    text + "];\n"
}
