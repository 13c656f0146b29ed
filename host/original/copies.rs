//! For build scripts: copies of ciplink's state.rs, wire.rs and objects.rs as modules to compile.
//!
//! Each copy is the source's text, byte for byte (with the edits asked for, if any: planted wrong readings), and behind
//! its end the lines of probe_*.rs, which read what is private to the file. The source is found by the environment
//! variable CIPLINK_SRC, or in ../shared/docs/src beside the repository.

use std::fs;
use std::path::{Path, PathBuf};
use std::process::exit;

pub struct Edit {
    pub file: String,
    pub old: String,
    pub new: String,
}

impl Edit {
    pub fn new(file: &str, old: &str, new: &str) -> Self {
        Edit { file: file.into(), old: old.into(), new: new.into() }
    }
}

pub struct Copy {
    pub name: String,
    pub edits: Vec<Edit>,
}

impl Copy {
    pub fn unchanged(name: &str) -> Self {
        Copy { name: name.into(), edits: Vec::new() }
    }
}

pub fn fail(text: &str) -> ! {
    println!("cargo::error={text}");
    exit(1)
}

fn read(path: &Path) -> String {
    println!("cargo::rerun-if-changed={}", path.display());
    match fs::read_to_string(path) {
        Ok(text) => text,
        Err(e) => fail(&format!("cannot read {}: {e}", path.display())),
    }
}

fn write_file(path: &Path, text: &str) {
    if let Err(e) = fs::write(path, text) {
        fail(&format!("cannot write {}: {e}", path.display()));
    }
}

/// The folder with state.rs, wire.rs and objects.rs.
fn source(host: &Path) -> PathBuf {
    println!("cargo::rerun-if-env-changed=CIPLINK_SRC");
    let given = std::env::var_os("CIPLINK_SRC").map(PathBuf::from);
    let root = given.clone().unwrap_or_else(|| host.join("../../shared/docs/src"));
    let inner = root.join("crates/ciplink/src/adapter");
    for folder in [&inner, &root] {
        if folder.join("state.rs").is_file() {
            return folder.clone();
        }
    }
    fail(&format!(
        "ciplink's sources are not at hand: there is no state.rs in {} ({}). Set CIPLINK_SRC to the folder that holds crates/ciplink",
        inner.display(),
        if given.is_some() { "from CIPLINK_SRC" } else { "beside the repository; CIPLINK_SRC is not set" },
    ))
}

fn apply(copy: &Copy, file: &str, text: &str) -> String {
    let mut text = text.to_owned();
    for edit in copy.edits.iter().filter(|e| e.file == file) {
        let found = text.matches(&edit.old).count();
        if found != 1 {
            fail(&format!(
                "{}: the text to replace in {file} is found {found} times, not once: {:?}",
                copy.name, edit.old
            ));
        }
        text = text.replacen(&edit.old, &edit.new, 1);
    }
    text
}

/// Writes the copies into OUT_DIR, and copies.rs there, which declares a module for each; for timing, with raw.rs.
pub fn write(copies: &[Copy], timing: bool) {
    let here = PathBuf::from(std::env::var_os("CARGO_MANIFEST_DIR").expect("run by cargo"));
    let host = here.parent().expect("a crate of host/").to_owned();
    let out = PathBuf::from(std::env::var_os("OUT_DIR").expect("run by cargo"));
    let ours = host.join("original");
    let source = source(&host);
    println!("cargo::rerun-if-changed={}", ours.join("copies.rs").display());
    let mut declarations = read(&ours.join("mod.rs"));
    if timing {
        declarations += "\nmod raw;\npub use raw::Raw;\n";
    }
    let parts = [
        ("state.rs", read(&source.join("state.rs")), read(&ours.join("probe_state.rs"))),
        ("objects.rs", read(&source.join("objects.rs")), read(&ours.join("probe_objects.rs"))),
        ("wire.rs", read(&source.join("wire.rs")), String::new()),
        ("forms.rs", read(&ours.join("forms.rs")), String::new()),
        ("side.rs", read(&ours.join("side.rs")), String::new()),
        ("raw.rs", read(&ours.join("raw.rs")), String::new()),
        ("mod.rs", declarations, String::new()),
    ];
    let mut declared = String::new();
    for copy in copies {
        let folder = out.join(&copy.name);
        if let Err(e) = fs::create_dir_all(&folder) {
            fail(&format!("cannot make {}: {e}", folder.display()));
        }
        for edit in &copy.edits {
            if !parts.iter().any(|(file, ..)| *file == edit.file) {
                fail(&format!("{}: no file {:?} to edit", copy.name, edit.file));
            }
        }
        for (file, text, probe) in &parts {
            write_file(&folder.join(file), &(apply(copy, file, text) + probe));
        }
        declared += &format!("#[path = {:?}]\npub mod {};\n", folder.join("mod.rs").display().to_string(), copy.name);
    }
    write_file(&out.join("copies.rs"), &declared);
}
