//! Whether a record is of the program that it is walked with: by the build id that was written beside it.

use std::fs;
use std::io::ErrorKind;

use crate::args::Args;
use crate::input::File;
use crate::object;
use crate::out::Out;
use crate::{json, Stop};

/// What is put behind a record's name for the file that holds its program's build id.
const BESIDE: &str = ".build-id";

/// The build ids of a record and of a file.
pub enum Tie {
    /// Both are there and the same.
    Same(String),
    /// The record says of no program; the file's, where it has one.
    Unsaid(String, Option<String>),
    /// The file has none, so that the record's is not compared.
    Uncompared(String),
}

impl Tie {
    /// What is known, in words.
    pub fn words(&self) -> String {
        match self {
            Tie::Same(id) => format!("build id {id}, of the record and of the file alike"),
            Tie::Unsaid(beside, _) => {
                format!("build id not compared: nothing says of which program the record is (no --build-id, no {beside})")
            }
            Tie::Uncompared(id) => format!("build id {id} of the record not compared: the file has no .note.gnu.build-id"),
        }
    }

    /// The same as JSON, behind other keys.
    pub fn as_json(&self, out: &mut Out) {
        let (recorded, held) = match self {
            Tie::Same(id) => (Some(id), Some(id)),
            Tie::Unsaid(_, held) => (None, held.as_ref()),
            Tie::Uncompared(id) => (Some(id), None),
        };
        for (key, id) in [("build_id", recorded), ("file_build_id", held)] {
            if let Some(id) = id {
                out.text(", ");
                json::text(out, key, id);
            }
        }
        out.text(", ");
        json::mark(out, "build_id_compared", matches!(self, Tie::Same(_)));
    }
}

/// Compares the build id of a record, by --build-id or the file beside it, with that of the program.
///
/// # Errors
/// They differ, or what is beside the record is no build id.
pub fn of(args: &Args, record: &str, file: &File) -> Result<Tie, Stop> {
    let beside = format!("{record}{BESIDE}");
    let held = file.object.as_ref().and_then(|object| object::build_id(&file.bytes, object));
    let said = match args.value("--build-id") {
        Some(id) => Some(("--build-id", id.to_string())),
        None => match fs::read_to_string(&beside) {
            Ok(text) => Some((beside.as_str(), text)),
            Err(error) if error.kind() == ErrorKind::NotFound => None,
            Err(error) => return Err(Stop::failed(&beside, error)),
        },
    };
    let Some((from, text)) = said else { return Ok(Tie::Unsaid(beside, held)) };
    let id = text.trim().to_ascii_lowercase();
    if id.is_empty() || !id.bytes().all(|byte| byte.is_ascii_hexdigit()) {
        return Err(Stop::failed(from, "a build id is hexadecimal digits"));
    }
    match held {
        None => Ok(Tie::Uncompared(id)),
        Some(held) if held == id => Ok(Tie::Same(id)),
        Some(held) => {
            let why = format!("it was recorded of a program with the build id {id}, and {} has {held}", file.name);
            Err(Stop::failed(record, why))
        }
    }
}
