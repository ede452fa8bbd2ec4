//! Writing: a field is a tag, a two-byte big-endian length and its bytes.

use crate::Command;

pub const HEADER_SIZE: usize = 5;

/// Tag 10, length 2, the edition.
pub fn header(edition: u64) -> [u8; HEADER_SIZE] {
    let edition = u16::try_from(edition).expect("an edition of two bytes");
    let [high, low] = edition.to_be_bytes();
    [0x10, 0, 2, high, low]
}

pub fn field(tag: u8, bytes: &[u8], out: &mut Vec<u8>) {
    out.push(tag);
    out.extend_from_slice(&(bytes.len() as u16).to_be_bytes());
    out.extend_from_slice(bytes);
}

/// Appends the command's record in an edition.
pub fn write(edition: u64, command: &Command, out: &mut Vec<u8>) {
    let (tag, numbers) = command.numbers();
    let mut inside = Vec::new();
    for tag in command.kind().fields(edition) {
        field(tag, &numbers[tag as usize].to_be_bytes(), &mut inside);
    }
    field(tag, &inside, out);
}

/// A whole journal of an edition.
pub fn journal(edition: u64, commands: &[Command]) -> Vec<u8> {
    let mut out = header(edition).to_vec();
    for command in commands {
        write(edition, command, &mut out);
    }
    out
}
