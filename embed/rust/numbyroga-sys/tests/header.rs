//! The declarations of this crate beside those of the header, by a C compiler: the layout of each struct, each constant,
//! and the type of each function.

use std::collections::BTreeSet;
use std::fmt::Write as _;
use std::io::Write as _;
use std::path::PathBuf;
use std::process::{Command, Stdio};

const RUST: &str = include_str!("../src/lib.rs");

fn header() -> PathBuf {
    let header = PathBuf::from(env!("CARGO_MANIFEST_DIR")).join("../../numbyroga.h");
    header.canonicalize().expect("numbyroga.h stands in embed/")
}

/// What the C compiler says about this text, behind the header.
fn compile(text: &str) -> Result<(), String> {
    let compiler = std::env::var("CC").unwrap_or_else(|_| "cc".into());
    let mut child = Command::new(compiler)
        .args([
            "-std=c11",
            "-Wall",
            "-Wextra",
            "-Werror",
            "-fsyntax-only",
            "-x",
            "c",
            "-",
        ])
        .stdin(Stdio::piped())
        .stderr(Stdio::piped())
        .spawn()
        .expect("a C compiler");
    let include = format!("#include \"{}\"\n", header().display());
    child
        .stdin
        .take()
        .unwrap()
        .write_all((include + text).as_bytes())
        .unwrap();
    let output = child.wait_with_output().unwrap();
    if output.status.success() {
        Ok(())
    } else {
        Err(String::from_utf8_lossy(&output.stderr).into_owned())
    }
}

/// A struct as this crate declares it: its name, its size, and where each field begins.
struct Layout {
    name: &'static str,
    size: &'static str,
    fields: Vec<(&'static str, &'static str)>,
}

/// The structs of the macros `place!` and `plain!`.
fn layouts() -> Vec<Layout> {
    let mut layouts: Vec<Layout> = Vec::new();
    let mut is_in_struct = false;
    for line in RUST.lines().map(str::trim) {
        let place = line.split_once(": ").filter(|(name, pointer)| {
            name.starts_with("nb_") && pointer.bytes().all(|it| it.is_ascii_lowercase())
        });
        if let Some((name, pointer)) = place {
            layouts.push(Layout {
                name,
                size: "16",
                fields: vec![("state", "0"), (pointer, "8")],
            });
        } else if let Some((name, rest)) = line
            .strip_suffix('{')
            .and_then(|line| line.split_once(": "))
        {
            if name.starts_with("nb_") {
                let size = rest.split(',').next().unwrap();
                layouts.push(Layout {
                    name,
                    size,
                    fields: Vec::new(),
                });
                is_in_struct = true;
            }
        } else if line == "}" {
            is_in_struct = false;
        } else if is_in_struct && !line.starts_with("///") {
            let (field, rest) = line.split_once(": ").unwrap();
            let (_, offset) = rest.split_once(" = ").unwrap();
            layouts
                .last_mut()
                .unwrap()
                .fields
                .push((field, offset.trim_end_matches(',')));
        }
    }
    layouts
}

/// The constants of this crate, with their values.
fn constants() -> Vec<(&'static str, &'static str)> {
    RUST.lines()
        .filter_map(|line| line.strip_prefix("pub const NB_"))
        .map(|line| {
            let (_, value) = line.split_once(" = ").unwrap();
            let (name, _) = line.split_once(':').unwrap();
            (name, value.trim_end_matches(';'))
        })
        .collect()
}

/// The functions of this crate, as C declares them.
fn functions() -> Vec<(String, String)> {
    let (_, block) = RUST.split_once("unsafe extern \"C\" {").unwrap();
    let code: Vec<&str> = block
        .lines()
        .map(str::trim)
        .filter(|line| !line.starts_with("///"))
        .collect();
    code.join(" ")
        .split(';')
        .filter_map(|declaration| {
            let (_, declaration) = declaration.split_once("fn ")?;
            let (name, rest) = declaration.split_once('(').unwrap();
            let (parameters, result) = rest.split_once(')').unwrap();
            let result = c_type(result.trim().strip_prefix("-> ").unwrap());
            let mut parameters: Vec<String> = parameters
                .split(',')
                .filter_map(|parameter| parameter.split_once(": "))
                .map(|(_, kind)| c_type(kind.trim()))
                .collect();
            if parameters.is_empty() {
                parameters.push("void".into());
            }
            Some((
                name.to_string(),
                format!("{result} {name}({});", parameters.join(", ")),
            ))
        })
        .collect()
}

fn c_type(kind: &str) -> String {
    for (prefix, qualifier) in [
        ("&mut ", ""),
        ("*mut ", ""),
        ("&", "const "),
        ("*const ", "const "),
    ] {
        if let Some(target) = kind.strip_prefix(prefix) {
            return format!("{qualifier}{} *", c_type(target));
        }
    }
    match kind {
        "u8" => "uint8_t".into(),
        "u32" => "uint32_t".into(),
        "u64" => "uint64_t".into(),
        "i32" => "int32_t".into(),
        "usize" => "size_t".into(),
        name => name.into(),
    }
}

#[test]
fn structs_are_laid_out_as_in_the_header() {
    let layouts = layouts();
    let mut text = String::new();
    for Layout { name, size, fields } in &layouts {
        writeln!(
            text,
            "_Static_assert(sizeof({name}) == {size}, \"{name}\");"
        )
        .unwrap();
        for (field, offset) in fields {
            writeln!(
                text,
                "_Static_assert(offsetof({name}, {field}) == {offset}, \"{name}.{field}\");"
            )
            .unwrap();
        }
    }
    compile(&text).unwrap();
    // Each struct of the header is declared, but nb_table, which no function takes.
    let header = std::fs::read_to_string(header()).unwrap();
    let in_header: BTreeSet<&str> = header
        .lines()
        .filter_map(|line| line.strip_prefix("} nb_")?.strip_suffix(';'))
        .filter(|name| *name != "table")
        .collect();
    let here: BTreeSet<&str> = layouts
        .iter()
        .map(|layout| layout.name.strip_prefix("nb_").unwrap())
        .collect();
    assert_eq!(here, in_header);
}

#[test]
fn constants_are_those_of_the_header() {
    let mut text = String::new();
    for (name, value) in constants() {
        writeln!(text, "_Static_assert(NB_{name} == {value}, \"NB_{name}\");").unwrap();
    }
    compile(&text).unwrap();
    let header = std::fs::read_to_string(header()).unwrap();
    let words: Vec<&str> = header.split_whitespace().collect();
    let in_header: BTreeSet<&str> = words
        .windows(2)
        .filter(|pair| pair[1] == "=")
        .filter_map(|pair| pair[0].strip_prefix("NB_"))
        .collect();
    let here: BTreeSet<&str> = constants().into_iter().map(|(name, _)| name).collect();
    assert_eq!(here, in_header);
}

#[test]
fn functions_are_those_of_the_header() {
    let functions = functions();
    let declarations: Vec<&str> = functions
        .iter()
        .map(|(_, declaration)| declaration.as_str())
        .collect();
    compile(&(declarations.join("\n") + "\n")).unwrap();
    let header = std::fs::read_to_string(header()).unwrap();
    let in_header: BTreeSet<&str> = header
        .lines()
        .filter_map(|line| {
            line.strip_prefix("nb_status ")
                .or(line.strip_prefix("uint32_t "))?
                .split_once('(')
                .map(|(name, _)| name)
        })
        .collect();
    let here: BTreeSet<&str> = functions.iter().map(|(name, _)| name.as_str()).collect();
    assert_eq!(here, in_header);
}

#[test]
fn the_compiler_refuses_what_differs() {
    assert!(compile("_Static_assert(sizeof(nb_event) == 95, \"nb_event\");\n").is_err());
    assert!(compile("nb_status nb_client_end(nb_server *);\n").is_err());
    assert!(compile("_Static_assert(NB_OK == 1, \"NB_OK\");\n").is_err());
}
