//! Lists the Session-Ids of a file of messages, laid one after the other, without decoding them: a line for each message.
//!
//! The file is named as the argument. With none, a few messages are listed that this program holds itself.

use std::path::Path;
use std::process::ExitCode;
use std::{env, fs, str};

use tandrekily::{header, Reader, Refusal};

const SESSION_ID: u32 = 263;

/// A message with a Session-Id, one without, one in which a vendor's AVP with the same code stands before it, and one whose only AVP
/// is cut short.
const MESSAGES: &[u8] = b"\
    \x01\0\0\x2C\x80\0\x01\x10\0\0\0\x04\0\0\0\x01\0\0\0\x01\
    \0\0\x01\x07\x40\0\0\x15a.example;1;2\0\0\0\
    \x01\0\0\x28\x80\0\x01\x18\0\0\0\0\0\0\0\x02\0\0\0\x02\
    \0\0\x01\x08\x40\0\0\x11a.example\0\0\0\
    \x01\0\0\x3C\x80\0\x01\x10\0\0\0\x04\0\0\0\x03\0\0\0\x03\
    \0\0\x01\x07\xC0\0\0\x0D\0\0\x28\xAFx\0\0\0\
    \0\0\x01\x07\x40\0\0\x15b.example;3;4\0\0\0\
    \x01\0\0\x24\x80\0\x01\x10\0\0\0\x04\0\0\0\x04\0\0\0\x04\
    \0\0\x01\x07\x40\0\0\x15c.exampl";

/// The data of the Session-Id, which has no vendor: another AVP with its code is passed over.
fn session_id(message: &[u8]) -> Result<Option<&[u8]>, Refusal> {
    let mut reader = Reader::new(message)?;
    while let Some(avp) = reader.find(SESSION_ID)? {
        if avp.vendor_id == 0 {
            return Ok(avp.data(message));
        }
    }
    Ok(None)
}

/// What the line of a message says: its Session-Id in quotes, or why there is none.
fn words(message: &[u8]) -> String {
    match session_id(message) {
        Ok(Some(data)) => match str::from_utf8(data) {
            Ok(text) => format!("{text:?}"),
            Err(_) => format!("\"{}\", which is not UTF-8", data.escape_ascii()),
        },
        Ok(None) => "no Session-Id".into(),
        Err(refusal) => format!("no Session-Id: {refusal}"),
    }
}

/// Prints the lines. Where a header is refused there is no length by which to go on.
fn index(bytes: &[u8]) -> Result<(), String> {
    let mut offset = 0;
    while offset < bytes.len() {
        let rest = &bytes[offset..];
        let stopped = |why| format!("{offset}: stopped, {} bytes are left: {why}", rest.len());
        let (header, _) = header(rest).map_err(stopped)?;
        let message = &rest[..header.length as usize];
        println!("{offset}: {} bytes, {}", message.len(), words(message));
        offset += message.len();
    }
    Ok(())
}

fn index_file(path: &Path) -> Result<(), String> {
    let bytes = fs::read(path).map_err(|error| format!("{}: {error}", path.display()))?;
    index(&bytes)
}

fn main() -> ExitCode {
    let answer = match env::args_os().nth(1) {
        Some(path) => index_file(path.as_ref()),
        None => index(MESSAGES),
    };
    if let Err(words) = answer {
        eprintln!("{words}");
        return ExitCode::FAILURE;
    }
    ExitCode::SUCCESS
}
