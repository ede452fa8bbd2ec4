//! Both sides in step: the same record to each, then everything compared.

use journal::Command;
use side::{Book, Offer, Query, Reply, Side};

use crate::questions::questions;
use crate::reference::{Answer, Reference};
use crate::snapshots::{old_form_alike, restored_alike, written_alike};

/// Where a run starts: a fresh book of an edition, or given rows.
#[derive(Clone, Debug)]
pub enum Start {
    Fresh(u64),
    Rows(Book),
}

impl Start {
    pub fn edition(&self) -> u64 {
        match self {
            Start::Fresh(edition) => *edition,
            Start::Rows(book) => book.edition,
        }
    }
}

/// The only difference that is listed for answers and queries within the comparison's domain:
/// the original cuts the paid quotient to 32 bits, the port compares it whole.
#[derive(Default)]
pub struct Met {
    pub queries: u64,
    pub wide_quotients: u64,
    pub written: u64,
    pub read_back: u64,
}

pub struct Pair<'a> {
    reference: Reference,
    other: &'a mut dyn Side,
    pub book: Book,
    pub met: Met,
    turn: usize,
    /// One in so many queries is asked after each command.
    one_in: usize,
    /// After one command in so many both sides write a snapshot.
    written_in: usize,
    /// After one command in so many they read it too.
    read_in: usize,
    room: Room,
}

/// Buffers kept from command to command.
#[derive(Default)]
struct Room {
    record: Vec<u8>,
    first: Vec<u64>,
    second: Vec<u64>,
    queries: Vec<Query>,
}

/// What buffers hold before an answer is written to them.
const UNTOUCHED: u64 = 0xA5A5_5A5A_A5A5_5A5A;
/// The longest answer: 64 offers, or a negotiation.
const MOST_NUMBERS: usize = 640;

const WRITTEN_IN: usize = 16;
const READ_IN: usize = 64;

impl<'a> Pair<'a> {
    pub fn start(other: &'a mut dyn Side, start: &Start) -> Pair<'a> {
        let mut reference = Reference::of(start.edition());
        match start {
            Start::Fresh(edition) => other.reset(*edition),
            Start::Rows(book) => {
                let mut flat = Vec::new();
                book.flat(&mut flat);
                reference.side().load(&flat);
                other.load(&flat);
            }
        }
        let book = reference.book();
        let (met, room) = (Met::default(), Room::default());
        let (one_in, written_in, read_in) = (other.one_in(), WRITTEN_IN, READ_IN);
        Pair { reference, other, book, met, turn: 0, one_in, written_in, read_in, room }
    }

    /// After every command each query is asked and a snapshot is written and read.
    pub fn compare_all(&mut self) {
        (self.one_in, self.written_in, self.read_in) = (1, 1, 1);
    }

    /// The names of both sides.
    pub fn names(&mut self) -> [&'static str; 2] {
        [self.reference.side().name(), self.other.name()]
    }

    /// Applies one command to both sides; `Err` says how they differ.
    pub fn step(&mut self, command: &Command) -> Result<Answer, String> {
        self.room.record.clear();
        journal::write(self.book.edition, command, &mut self.room.record);
        let answer = self.reference.run(command);
        let other = self.other.apply(&self.room.record);
        if other != answer.number {
            let [one, two] = self.names();
            return Err(format!("{one} answers {answer}, {two} answers {other}"));
        }
        self.compare_books()?;
        self.compare_queries(command.now())?;
        self.turn += 1;
        if self.turn % self.written_in == 0 {
            self.compare_snapshots()?;
        }
        Ok(answer)
    }

    fn compare_snapshots(&mut self) -> Result<(), String> {
        let bytes = written_alike(self.other, &self.book)?;
        self.met.written += 1;
        if self.turn % self.read_in == 0 {
            self.read_back(&bytes)?;
        }
        Ok(())
    }

    /// Reads the snapshot of the present book, first in the old form. Both sides go on from there; the
    /// original, which has no snapshots, from where it is.
    fn read_back(&mut self, bytes: &[u8]) -> Result<(), String> {
        old_form_alike(self.other, bytes)?;
        restored_alike(self.other, bytes, &self.book)?;
        if let Reference::Plain(plain) = &mut self.reference {
            restored_alike(&mut **plain, bytes, &self.book)?;
        }
        self.met.read_back += 1;
        self.compare_books()
    }

    /// Compares the whole state as it stands, before the first command too.
    pub fn compare_books(&mut self) -> Result<(), String> {
        let names = self.names();
        let Room { first, second, .. } = &mut self.room;
        self.reference.side().dump(first);
        self.other.dump(second);
        let Some(book) = Book::of_flat(first) else {
            return Err(format!("{}'s dump shows no book", names[0]));
        };
        if first != second {
            let other = Book::of_flat(second);
            return Err(books_differ(&book, other.as_ref(), names));
        }
        if !plain::sound(&book) {
            return Err("the book is not sound".to_string());
        }
        self.book = book;
        Ok(())
    }

    fn compare_queries(&mut self, now: u64) -> Result<(), String> {
        let mut queries = std::mem::take(&mut self.room.queries);
        questions(&self.book, now, self.turn, &mut queries);
        let mut place = self.turn;
        queries.retain(|_| {
            place += 1;
            place % self.one_in == 0
        });
        let ended = queries.iter().try_for_each(|query| self.compare_query(*query));
        self.met.queries += queries.len() as u64;
        self.room.queries = queries;
        ended
    }

    fn compare_query(&mut self, query: Query) -> Result<(), String> {
        let names = self.names();
        let Room { first, second, .. } = &mut self.room;
        first.clear();
        first.resize(MOST_NUMBERS, UNTOUCHED);
        let reply = self.reference.side().ask(query, first);
        first.truncate(reply.written);
        second.clear();
        second.resize(reply.written + 2, UNTOUCHED);
        let other = self.other.ask(query, second);
        let past = second.split_off(reply.written);
        if about_wide_quotient(&self.book, query) && first[0] != 0 {
            self.met.wide_quotients += 1;
            first.fill(0);
        }
        if reply != other || first != second {
            let (one, two) = (shown(reply, first), shown(other, second));
            return Err(format!("{query:?}: {} answers {one}, {} {two}", names[0], names[1]));
        }
        if past != [UNTOUCHED; 2] {
            return Err(format!("{query:?}: {} writes past the answer", names[1]));
        }
        self.compare_short(query, reply)
    }

    /// Room for one number less gives 14 and is left as it was.
    fn compare_short(&mut self, query: Query, reply: Reply) -> Result<(), String> {
        let long_list = matches!(query, Query::All | Query::ByStatus(0) | Query::Page(1, _));
        if !long_list || reply.written == 0 {
            return Ok(());
        }
        let short = &mut self.room.second;
        short.clear();
        short.resize(reply.written - 1, UNTOUCHED);
        let reply = self.other.ask(query, short);
        if reply == Reply::refused(14) && short.iter().all(|number| *number == UNTOUCHED) {
            return Ok(());
        }
        let shown = shown(reply, short);
        Err(format!("{query:?} with too short a buffer: {} answers {shown}", self.other.name()))
    }
}

fn shown(reply: Reply, numbers: &[u64]) -> String {
    match reply.number {
        0 => format!("{numbers:?}"),
        number => format!("refusal {number}"),
    }
}

/// Whether the query is about such an offer.
fn about_wide_quotient(book: &Book, query: Query) -> bool {
    let Query::Due(id, _) = query else { return false };
    book.offers.iter().any(|offer| offer.id == id && wide_quotient(offer))
}

/// Whether the due rule's paid quotient is 2^32 or more, where the port's answer is 0 since no
/// schedule has so many installments.
pub fn wide_quotient(offer: &Offer) -> bool {
    offer.schedule.is_some_and(|schedule| offer.repaid / schedule.installment >= 1 << 32)
}

fn books_differ(book: &Book, other: Option<&Book>, names: [&str; 2]) -> String {
    let Some(other) = other else { return format!("{}'s dump shows no book", names[1]) };
    let (one, two) = (format!("{book:#?}"), format!("{other:#?}"));
    let (one, two): (Vec<_>, Vec<_>) = (one.lines().collect(), two.lines().collect());
    let same = one.iter().zip(&two).take_while(|(one, two)| one == two).count();
    let shown = |lines: Vec<&str>| {
        lines
            .iter()
            .skip(same)
            .take(3)
            .map(|line| line.trim())
            .fold(String::new(), |text, line| text + " " + line)
    };
    let (one, two) = (shown(one), shown(two));
    format!("the books differ: {} has{one}, {}{two}", names[0], names[1])
}
