//! Reading and writing the snapshot of a full book, beside the replay of the journals.

use journal::LATEST;
use plain::edition::{fresh, most_rounds};
use plain::snapshot::write;
use side::{Account, Book, Invoice, Offer, Round, Schedule, Totals};

use crate::lookups::{lowest_first, replay};

extern "C" {
    fn timing_read(bytes: *const u8, len: usize, times: u64) -> u64;
    fn timing_write(bytes: *const u8, len: usize, out: *mut u8, room: usize, times: u64) -> u64;
}

/// Rows of each table, and how often a snapshot is read or written in a run.
const ROWS: u64 = 64;
const MANY: u64 = 200;

pub fn measure(runs: usize, journals: &[Vec<u8>]) {
    let bytes = write(&full()).expect("the full book is sound");
    let mut out = vec![0; bytes.len()];
    let (from, len) = (bytes.as_ptr(), bytes.len());
    println!("\nthe snapshot of a full book, {len} bytes; microseconds, lowest, middle and highest");
    show(runs, "library, reading it", MANY, &|times| unsafe { timing_read(from, len, times) });
    let to = out.as_mut_ptr();
    show(runs, "library, writing it", MANY, &|times| unsafe { timing_write(from, len, to, len, times) });
    assert!(out == bytes, "the book that was read is written as the same bytes");
    show(runs, "library, replay of all journals", 1, &|times| {
        (0..times).flat_map(|_| journals).map(|journal| replay(journal)).sum()
    });
}

fn show(runs: usize, what: &str, many: u64, work: &dyn Fn(u64) -> u64) {
    let times = lowest_first(runs, many, work);
    let each = |at: usize| times[at] * 1e6;
    println!("{what:32} {:8.1} {:8.1} {:8.1}", each(0), each(runs / 2), each(runs - 1));
}

/// Every table full, every offer with as many rounds as there may be and a schedule.
fn full() -> Book {
    Book {
        repayment: Some(1),
        totals: Totals { offers: ROWS, financed: 1_000_000, repaid: 500_000, fees: 1_000 },
        accounts: (1..=ROWS).map(account).collect(),
        invoices: (1..=ROWS).map(invoice).collect(),
        offers: (1..=ROWS).map(offer).collect(),
        ..fresh(LATEST)
    }
}

fn account(id: u64) -> Account {
    Account { id, balance: 1_000_000, allowance: 500_000, offered: 900, accepted: 800, pending: 1, repaid: 2, blacklisted: id % 2 }
}

fn invoice(id: u64) -> Invoice {
    Invoice { id, originator: id, amount: 1_000_000, status: id % 3 }
}

fn offer(id: u64) -> Offer {
    Offer {
        id,
        invoice: id,
        lender: ROWS + 1 - id,
        amount: 900_000,
        rate: 500,
        duration: 86_400,
        expires: 2_000_000_000,
        status: id % 6,
        funded: 1_700_000_000,
        repaid: 300_000,
        outcome: 2,
        deadline: 1_700_259_200,
        rounds: (0..most_rounds(LATEST) as u64).map(round).collect(),
        schedule: Some(Schedule { count: 12, code: 3, installment: 78_750, first: 1_702_592_000, amount: 900_000, rate: 500, kind: 0 }),
    }
}

fn round(number: u64) -> Round {
    Round { party: number % 2, amount: 900_000, rate: 400, duration: 86_400, time: 1_700_000_000 + number }
}
