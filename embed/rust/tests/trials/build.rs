//! Writes the interfaces of all protocol files in the folders that PROTOCOLS names, with ':' between them: a module for each file, and a
//! list of all. A file that names an interface of no file is left out, and told.

use std::collections::{BTreeMap, BTreeSet};
use std::fmt::Write;
use std::path::{Path, PathBuf};
use std::{env, fs};

struct File {
    path: PathBuf,
    module: String,
    defines: Vec<String>,
    uses: BTreeSet<String>,
}

impl File {
    fn read(path: &Path, number: usize) -> Self {
        let text = without_comments(&fs::read_to_string(path).unwrap());
        let values = |tag, name| {
            tags(&text, tag).filter_map(move |it| attribute(it, name)).map(String::from)
        };
        let defines: Vec<String> = values("interface", "name").collect();
        let uses = values("arg", "interface").filter(|it| !defines.contains(it)).collect();
        Self { path: path.into(), module: format!("file_{number}"), defines, uses }
    }
}

fn without_comments(text: &str) -> String {
    let (first, rest) = text.split_once("<!--").unwrap_or((text, ""));
    let mut all = first.to_string();
    for part in rest.split("<!--") {
        all += part.split_once("-->").map_or("", |(_, after)| after);
    }
    all
}

/// The attributes of each tag of this name.
fn tags<'a>(text: &'a str, name: &'a str) -> impl Iterator<Item = &'a str> {
    let is_its = |it: &&str| it.starts_with(|next: char| next.is_whitespace());
    text.split('<').filter_map(move |it| it.split('>').next()?.strip_prefix(name)).filter(is_its)
}

fn attribute<'a>(tag: &'a str, name: &str) -> Option<&'a str> {
    let mut parts = tag.split('"');
    while let (Some(before), Some(value)) = (parts.next(), parts.next()) {
        if before.trim().trim_end_matches('=').trim_end() == name {
            return Some(value);
        }
    }
    None
}

fn protocol_files(folder: &Path, found: &mut Vec<PathBuf>) {
    let mut inside: Vec<PathBuf> =
        fs::read_dir(folder).unwrap().map(|it| it.unwrap().path()).collect();
    inside.sort();
    for path in inside {
        let name = path.file_name().unwrap().to_string_lossy();
        if path.is_dir() && name != "tests" {
            protocol_files(&path, found);
        } else if name.ends_with(".xml") && !name.ends_with("-v5.xml") {
            // xdg-shell-unstable-v5 has names of xdg-shell, with other messages.
            found.push(path);
        }
    }
}

/// Leaves out what names an interface of no file, and then what named those.
fn all_known(files: &mut Vec<File>) -> Vec<String> {
    let mut left_out = Vec::new();
    loop {
        let known: BTreeSet<String> = files.iter().flat_map(|it| it.defines.clone()).collect();
        let Some(place) = files.iter().position(|it| !it.uses.is_subset(&known)) else {
            return left_out;
        };
        left_out.push(files.remove(place).path.file_name().unwrap().to_string_lossy().into_owned());
    }
}

fn module(file: &File, homes: &BTreeMap<String, String>) -> String {
    let modules: BTreeSet<&String> = file.uses.iter().map(|it| &homes[it]).collect();
    let uses: String = modules.iter().map(|it| format!("    use super::{it}::*;\n")).collect();
    let path = file.path.display();
    format!(
        "mod {} {{\n{uses}    wayland_scanner::generate_interfaces!({:?});\n}}\n",
        file.module,
        path.to_string()
    )
}

fn main() {
    println!("cargo:rerun-if-env-changed=PROTOCOLS");
    let mut paths = Vec::new();
    for folder in
        env::var("PROTOCOLS").expect("PROTOCOLS names folders with protocol files").split(':')
    {
        protocol_files(Path::new(folder), &mut paths);
    }
    let mut files: Vec<File> =
        paths.iter().enumerate().map(|(number, path)| File::read(path, number)).collect();
    let left_out = all_known(&mut files);
    let mut homes = BTreeMap::new();
    for file in &files {
        for name in &file.defines {
            homes.entry(name.clone()).or_insert(file.module.clone());
        }
    }
    let mut text: String = files.iter().map(|it| module(it, &homes)).collect();
    writeln!(
        text,
        "pub const FILES: usize = {};\npub const LEFT_OUT: &[&str] = &{left_out:?};",
        files.len()
    )
    .unwrap();
    text += "pub static ALL: &[&wayland_backend::protocol::Interface] = &[\n";
    for file in &files {
        for name in &file.defines {
            writeln!(text, "    &{}::{}_INTERFACE,", file.module, name.to_uppercase()).unwrap();
        }
    }
    text += "];\n";
    fs::write(Path::new(&env::var("OUT_DIR").unwrap()).join("protocols.rs"), text).unwrap();
}
