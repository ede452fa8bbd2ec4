//! The proved book behind the trait `Side` and the proved rescue behind `Rescue`: the program `bridge`
//! of this repository, which serves them over its standard input and output. crates/bridge/src/main.rt
//! says what goes over them.

mod pipe;

use std::cell::RefCell;

use pipe::{Pipe, Request, SMALL, WIDE};
use side::{Query, Reading, Refused, Reply, Rescue, Rescued, Restored, Room, Side};
use side::{PROGRAM_HOLDS, TOO_LONG};

/// Names the command that starts the program, its words parted by spaces.
pub const COMMAND: &str = "SOLGAVERNA_BRIDGE";

const MALFORMED: u64 = 13;

/// So many readings are sent before their answers are taken: they fit the pipe to the program, so
/// that sending them waits for no answer to be taken.
const READINGS: usize = 8;

pub struct Port {
    pipe: RefCell<Pipe>,
    /// The book after the last command, which its answer brings along.
    shown: Option<Vec<u64>>,
}

impl Port {
    pub fn start(command: &str) -> Result<Port, String> {
        let pipe = Pipe::start(command).map_err(|error| format!("{command}: {error}"))?;
        Ok(Port { pipe: RefCell::new(pipe), shown: None })
    }

    /// Replays a journal record by record up to its end or a malformed one, and keeps the book.
    fn replay(&mut self, journal: &[u8]) {
        let edition = journal::edition_of(journal);
        self.reset(edition.unwrap_or(1));
        let mut rest = if edition.is_some() { &journal[journal::HEADER_SIZE..] } else { &[] };
        while let [_, high, low, ..] = *rest {
            let length = 3 + usize::from(u16::from_be_bytes([high, low]));
            let Some((record, after)) = rest.split_at_checked(length) else { return };
            if self.apply(record) == MALFORMED {
                return;
            }
            rest = after;
        }
    }

    /// Asks to read a snapshot, and for the book after it where that is wanted.
    fn send_reading(&mut self, bytes: &[u8], shown: bool) {
        self.shown = None;
        let pipe = self.pipe.get_mut();
        pipe.send(Request::Read, &[bytes.len() as u64], &[]);
        pipe.send_snapshot(bytes);
        if shown {
            pipe.send(Request::Show, &[], &[]);
        }
    }

    fn restored(&mut self, shown: bool) -> Restored {
        let pipe = self.pipe.get_mut();
        let answer = pipe.answer();
        let answer = if answer[0] == 0 { Ok(()) } else { Err((answer[0], answer[1])) };
        Restored { answer, book: shown.then(|| pipe.answer()) }
    }

    /// The listing that a request gives of a journal.
    fn listing_by(&mut self, request: Request, journal: &[u8]) -> Vec<u8> {
        if journal.len() > PROGRAM_HOLDS {
            return TOO_LONG.into();
        }
        let pipe = self.pipe.get_mut();
        pipe.send(request, &[journal.len() as u64], &[]);
        pipe.send_large(journal);
        let length = pipe.answer()[0] as usize;
        pipe.bytes(length)
    }

    fn list(&mut self, query: Query, out: &mut [u64]) -> Reply {
        let [query, a, b] = query.numbers();
        let fill = out.first().copied().unwrap_or(0);
        assert!(out.iter().all(|number| *number == fill), "a lent buffer holds one number");
        let pipe = self.pipe.get_mut();
        pipe.send(Request::List, &[query, a, b, out.len() as u64, fill], &[]);
        let answer = pipe.answer();
        let (head, numbers) = answer.split_at(3);
        out.copy_from_slice(numbers);
        Reply { number: head[0], written: 10 * head[1] as usize }
    }
}

impl Side for Port {
    fn name(&self) -> &'static str {
        "the port"
    }

    fn reset(&mut self, edition: u64) {
        self.shown = None;
        self.pipe.get_mut().send(Request::Fresh, &[edition], &[]);
    }

    fn load(&mut self, book: &[u64]) {
        self.shown = None;
        let pipe = self.pipe.get_mut();
        pipe.send(Request::Load, &[], &[]);
        let bytes: Vec<_> = book.iter().flat_map(|number| number.to_be_bytes()).collect();
        pipe.send_large(&bytes);
    }

    fn apply(&mut self, record: &[u8]) -> u64 {
        let pipe = self.pipe.get_mut();
        pipe.send(Request::Apply, &[record.len() as u64], record);
        pipe.send(Request::Show, &[], &[]);
        let answer = pipe.answer();
        self.shown = Some(pipe.answer());
        answer[0]
    }

    fn dump(&self, out: &mut Vec<u64>) {
        out.clear();
        if let Some(shown) = &self.shown {
            return out.extend(shown);
        }
        let mut pipe = self.pipe.borrow_mut();
        pipe.send(Request::Show, &[], &[]);
        out.extend(pipe.answer());
    }

    fn ask(&mut self, query: Query, out: &mut [u64]) -> Reply {
        let [number, a, b] = query.numbers();
        if number <= 6 {
            return self.list(query, out);
        }
        let pipe = self.pipe.get_mut();
        pipe.send(Request::Ask, &[number, a, b], &[]);
        let answer = pipe.answer();
        match answer[0] {
            0 => Reply::write(&answer[3..], out),
            number => Reply::refused(number),
        }
    }

    fn listing(&mut self, journal: &[u8]) -> Vec<u8> {
        self.listing_by(Request::Listing, journal)
    }

    fn answers(&mut self, journal: &[u8], questions: &str) -> Result<String, String> {
        self.replay(journal);
        side::answered(self, questions)
    }

    fn snapshot(&mut self, room: usize) -> Result<Vec<u8>, u64> {
        let pipe = self.pipe.get_mut();
        pipe.send(Request::Write, &[room.min(WIDE) as u64], &[]);
        let answer = pipe.answer();
        match answer[0] {
            0 => Ok(pipe.bytes(answer[1] as usize)),
            number => Err(number),
        }
    }

    fn restore(&mut self, snapshot: &[u8]) -> Result<(), Refused> {
        self.send_reading(snapshot, false);
        self.restored(false).answer
    }

    fn restore_each(&mut self, readings: &[Reading]) -> Vec<Restored> {
        let small = readings.iter().all(|reading| reading.bytes.len() <= SMALL);
        let mut all = Vec::new();
        for some in readings.chunks(if small { READINGS } else { 1 }) {
            some.iter().for_each(|reading| self.send_reading(&reading.bytes, reading.shown));
            all.extend(some.iter().map(|reading| self.restored(reading.shown)));
        }
        all
    }

    fn listing_from(&mut self, journal: &[u8]) -> Vec<u8> {
        self.shown = None;
        self.listing_by(Request::ListingFrom, journal)
    }

    fn one_in(&self) -> usize {
        8
    }
}

impl Rescue for Port {
    fn rescue(&mut self, journal: &[u8], room: Room) -> Result<Rescued, u64> {
        let pipe = self.pipe.get_mut();
        let room = [room.output, room.report].map(|room| room as u64);
        pipe.send(Request::Rescue, &[journal.len() as u64, room[0], room[1]], &[]);
        pipe.send_large(journal);
        let answer = pipe.answer();
        let [number, size, dropped, left] = answer[..] else { panic!("no answer: {answer:?}") };
        if number != 0 {
            return Err(number);
        }
        let clean = pipe.bytes(size as usize);
        let dropped = pipe.numbers(dropped as usize);
        Ok(Rescued { clean, dropped, left })
    }
}
