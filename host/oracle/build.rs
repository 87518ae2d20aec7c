//! Writes two modules that `src/` includes: the Rust module, unchanged, and the module as requested,
//! which is the same text with the edits of `requested/` made in the order of their names, and
//! `requested/stamping.rs` behind it. Each has `parts.rs` at its end, with what that asks of its text.
//! The module's own text and its licence must be the published ones, by their checksums.
//!
//! AUDIO_FRAME_RS may name the text at another place, from the repository's root.

use std::path::{Path, PathBuf};
use std::process::{Command, ExitCode};
use std::{env, fs};

const TEXT: &str = "audio_frame.rs";
const PARTS: &str = "parts.rs";
const UNMARKED: &str = "unmarked.rs";
const STAMPING: &str = "requested/stamping.rs";
const SUMS: &str = "SHA256SUMS";
const REQUESTED: &str = "requested";

fn main() -> ExitCode {
    match write_modules() {
        Ok(()) => ExitCode::SUCCESS,
        Err(what) => {
            eprintln!("host/oracle: {what}");
            ExitCode::FAILURE
        }
    }
}

fn write_modules() -> Result<(), String> {
    let folder = PathBuf::from(variable("CARGO_MANIFEST_DIR")?);
    println!("cargo::rerun-if-changed={}", folder.display());
    let text = match env::var_os("AUDIO_FRAME_RS") {
        Some(other) => folder.join("../..").join(other),
        None => folder.join(TEXT),
    };
    println!("cargo::rerun-if-env-changed=AUDIO_FRAME_RS");
    println!("cargo::rerun-if-changed={}", text.display());
    check_sums(&folder, &text)?;
    let unchanged = read(&text)?;
    let requested = edited(&unchanged, &folder.join(REQUESTED))?;
    write_module("audio_frame.rs", &unchanged, &[UNMARKED, PARTS].map(|file| folder.join(file)))?;
    write_module("requested.rs", &requested, &[STAMPING, PARTS].map(|file| folder.join(file)))
}

/// Writes a public module of that text, with the files behind it. The text's lines keep their
/// numbers, and a warning about it is nobody's.
fn write_module(file: &str, text: &str, behind: &[PathBuf]) -> Result<(), String> {
    let behind: String = behind.iter().map(|path| format!("include!({path:?});\n")).collect();
    let module = format!("#[allow(warnings)] pub mod audio_frame {{ {text}\n{behind}}}\n");
    let out = Path::new(&variable("OUT_DIR")?).join(file);
    fs::write(&out, module).map_err(|error| format!("{}: {error}", out.display()))
}

/// The text with each edit of that folder made. There must be one at least.
fn edited(text: &str, folder: &Path) -> Result<String, String> {
    let entries = fs::read_dir(folder).map_err(|error| format!("{}: {error}", folder.display()))?;
    let mut edits: Vec<PathBuf> = entries.flatten().map(|entry| entry.path()).collect();
    edits.retain(|path| path.extension().is_some_and(|extension| extension == "edit"));
    edits.sort();
    if edits.is_empty() {
        return Err(format!("{} has no edit", folder.display()));
    }
    edits.iter().try_fold(text.to_string(), |text, edit| {
        made(&text, &read(edit)?).map_err(|what| format!("{}: {what}", edit.display()))
    })
}

/// The text with one edit made: words about it, then the lines behind a line `OLD`, in whose place
/// those behind the line `NEW` are put, and so on with every further line `OLD`.
fn made(text: &str, edit: &str) -> Result<String, String> {
    let (_, pairs) = edit.split_once("\nOLD\n").ok_or("has no line OLD")?;
    let pairs = pairs.strip_suffix('\n').unwrap_or(pairs);
    pairs.split("\nOLD\n").try_fold(text.to_string(), |text, pair| {
        let pair = format!("{pair}\n");
        let (old, new) = pair.split_once("\nNEW\n").ok_or("has no line NEW behind it")?;
        put(&text, &format!("{old}\n"), if new.is_empty() { "\n" } else { new })
    })
}

/// The text with the new lines in the place of the old ones, which must stand in it exactly once.
fn put(text: &str, old: &str, new: &str) -> Result<String, String> {
    match text.matches(old).count() {
        1 => Ok(text.replace(old, new)),
        times => Err(format!("its old lines stand {times} times in the text")),
    }
}

/// Each recorded file must have its recorded sum, and so must the text, wherever it stands.
fn check_sums(folder: &Path, text: &Path) -> Result<(), String> {
    let sums = read(&folder.join(SUMS))?;
    let recorded: Vec<_> = sums.lines().filter_map(|line| line.split_once("  ")).collect();
    if !recorded.iter().any(|(_, name)| *name == TEXT) {
        return Err(format!("{SUMS} does not record {TEXT}"));
    }
    for (recorded, name) in recorded {
        let file = if name == TEXT { text } else { &folder.join(name) };
        if sum_of(file)? != recorded {
            return Err(format!("{} is not what host/oracle/{SUMS} records", file.display()));
        }
    }
    Ok(())
}

fn sum_of(file: &Path) -> Result<String, String> {
    let input = fs::File::open(file).map_err(|error| format!("{}: {error}", file.display()))?;
    let output = Command::new("sha256sum").stdin(input).output();
    let output = output.map_err(|error| format!("sha256sum: {error}"))?;
    let text = String::from_utf8_lossy(&output.stdout);
    Ok(text.split_whitespace().next().unwrap_or_default().into())
}

fn read(file: &Path) -> Result<String, String> {
    fs::read_to_string(file).map_err(|error| format!("{}: {error}", file.display()))
}

fn variable(name: &str) -> Result<String, String> {
    env::var(name).map_err(|error| format!("{name}: {error}"))
}
