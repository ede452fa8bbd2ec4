//! Requests to the program and its answers.

use std::io::{self, BufReader, BufWriter, Read, Write};
use std::process::{Child, ChildStdin, ChildStdout, Command, Stdio};

const FRAME: usize = 128;
const RECORD: usize = 32;
/// The room for a book or a journal that follows a frame, and the two for a snapshot.
const LARGE: usize = 65_536;
pub const SMALL: usize = 4_096;
pub const WIDE: usize = 81_920;

/// What a request asks, by its number in the program.
#[derive(Clone, Copy)]
pub enum Request {
    Fresh = 1,
    Load = 2,
    Apply = 3,
    Show = 4,
    List = 5,
    Ask = 6,
    Listing = 7,
    Write = 8,
    Read = 9,
    ListingFrom = 10,
    Rescue = 11,
}

pub struct Pipe {
    program: Child,
    requests: Option<BufWriter<ChildStdin>>,
    answers: BufReader<ChildStdout>,
}

impl Pipe {
    pub fn start(command: &str) -> io::Result<Pipe> {
        let mut words = command.split_whitespace();
        let name = words.next().ok_or(io::ErrorKind::NotFound)?;
        let mut start = Command::new(name);
        let start = start.args(words).stdin(Stdio::piped()).stdout(Stdio::piped());
        let mut program = start.spawn()?;
        let requests = program.stdin.take().map(|pipe| BufWriter::with_capacity(2 * WIDE, pipe));
        let answers = program.stdout.take().ok_or(io::ErrorKind::BrokenPipe)?;
        Ok(Pipe { program, requests, answers: BufReader::with_capacity(WIDE, answers) })
    }

    /// A frame: the request, its numbers, and a record in the place of its numbers from the fourth.
    pub fn send(&mut self, request: Request, numbers: &[u64], record: &[u8]) {
        let mut frame = [0; FRAME];
        let numbers = [&[request as u64], numbers].concat();
        for (place, number) in frame.chunks_mut(8).zip(numbers) {
            place.copy_from_slice(&number.to_be_bytes());
        }
        for (place, byte) in frame[RECORD..].iter_mut().zip(record) {
            *place = *byte;
        }
        self.write(&frame);
    }

    /// The book or the journal that follows a frame.
    pub fn send_large(&mut self, bytes: &[u8]) {
        self.send_in(LARGE, bytes);
    }

    /// A snapshot that follows a frame: in the smaller size where it has room there.
    pub fn send_snapshot(&mut self, bytes: &[u8]) {
        self.send_in(if bytes.len() > SMALL { WIDE } else { SMALL }, bytes);
    }

    fn send_in(&mut self, room: usize, bytes: &[u8]) {
        assert!(bytes.len() <= room, "{} bytes are too many", bytes.len());
        self.write(bytes);
        self.write(&vec![0; room - bytes.len()]);
    }

    /// The numbers of an answer.
    pub fn answer(&mut self) -> Vec<u64> {
        let length = self.bytes(8);
        self.numbers(number(&length) as usize / 8 - 1)
    }

    pub fn numbers(&mut self, count: usize) -> Vec<u64> {
        self.bytes(8 * count).chunks(8).map(number).collect()
    }

    pub fn bytes(&mut self, length: usize) -> Vec<u8> {
        let mut bytes = vec![0; length];
        let flushed = self.requests.as_mut().map_or(Ok(()), Write::flush);
        let read = flushed.and_then(|()| self.answers.read_exact(&mut bytes));
        read.expect("the program answers");
        bytes
    }

    fn write(&mut self, bytes: &[u8]) {
        let requests = self.requests.as_mut().expect("requests are taken until the end");
        requests.write_all(bytes).expect("the program takes a request");
    }
}

impl Drop for Pipe {
    /// The program ends when its input does.
    fn drop(&mut self) {
        self.requests = None;
        let _ = self.program.wait();
    }
}

fn number(bytes: &[u8]) -> u64 {
    bytes.iter().fold(0, |number, byte| number << 8 | u64::from(*byte))
}
