//! Takes the published files from the folder that OXIDSQL_SRC names into the build's folder,
//! and applies the package's patches, if it has any.
//!
//! A patch holds hunks. A hunk begins with a line `@@ file: which fault, and what it does`; of
//! the lines after it those with a blank or a minus in front are the text looked for, those
//! with a blank or a plus in front the text put in its place. The text must be there exactly
//! once. An empty line stands for an empty line of both.

use std::path::{Path, PathBuf};
use std::{env, fs};

const DEFAULT_FOLDER: &str = "../../../shared/docs/src";
const FILES: [&str; 5] = [
    "access/free_space_inventory.rs",
    "access/slotted_page_segment.rs",
    "storage/page.rs",
    "types.rs",
    "util/align.rs",
];

struct Hunk {
    title: String,
    file: String,
    old: String,
    new: String,
}

fn add_line(hunk: &mut Hunk, line: &str) {
    let text = line.get(1..).unwrap_or("");
    if !line.starts_with('+') {
        hunk.old.push_str(text);
        hunk.old.push('\n');
    }
    if !line.starts_with('-') {
        hunk.new.push_str(text);
        hunk.new.push('\n');
    }
}

fn parse(patch: &str) -> Vec<Hunk> {
    let mut hunks: Vec<Hunk> = Vec::new();
    for line in patch.lines() {
        if let Some(title) = line.strip_prefix("@@ ") {
            let file = title.split(':').next().unwrap_or("").to_string();
            hunks.push(Hunk { title: title.to_string(), file, old: String::new(), new: String::new() });
        } else {
            add_line(hunks.last_mut().expect("a patch begins with a hunk"), line);
        }
    }
    hunks
}

fn apply(hunk: &Hunk, folder: &Path, patch: &Path) {
    let path = folder.join(&hunk.file);
    let text = fs::read_to_string(&path).expect("a hunk names a published file");
    let places = text.matches(&hunk.old).count();
    assert!(places == 1, "{}: '{}' fits at {places} places", patch.display(), hunk.title);
    fs::write(&path, text.replacen(&hunk.old, &hunk.new, 1)).expect("the build's folder is written");
}

fn copy(from: &Path, to: &Path) {
    for file in FILES {
        let (source, place) = (from.join("src").join(file), to.join(file));
        fs::create_dir_all(place.parent().unwrap()).expect("the build's folder is made");
        let text = fs::read(&source).unwrap_or_else(|why| panic!("{}: {why}", source.display()));
        fs::write(place, text).expect("the build's folder is written");
        println!("cargo:rerun-if-changed={}", source.display());
    }
}

fn patches(folder: &Path) -> Vec<PathBuf> {
    let Ok(entries) = fs::read_dir(folder) else { return Vec::new() };
    let mut paths: Vec<PathBuf> = entries.map(|entry| entry.expect("a patch is listed").path()).collect();
    paths.sort();
    paths
}

fn main() {
    let package = PathBuf::from(env::var_os("CARGO_MANIFEST_DIR").unwrap());
    let built = PathBuf::from(env::var_os("OUT_DIR").unwrap());
    let named = env::var_os("OXIDSQL_SRC").filter(|name| !name.is_empty());
    copy(&named.map_or(package.join(DEFAULT_FOLDER), PathBuf::from), &built);
    for patch in patches(&package.join("patches")) {
        let text = fs::read_to_string(&patch).expect("a patch is read");
        parse(&text).iter().for_each(|hunk| apply(hunk, &built, &patch));
    }
    println!("cargo:rerun-if-env-changed=OXIDSQL_SRC");
    println!("cargo:rerun-if-changed=patches");
    println!("cargo:rerun-if-changed=../standins/build.rs");
}
