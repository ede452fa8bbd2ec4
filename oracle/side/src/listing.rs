//! The lines that the replay program prints.

use std::fmt::Write;

use crate::rows::Book;

/// The replay program holds a journal of up to so many bytes; of a longer one it prints only
/// `TOO_LONG`.
pub const PROGRAM_HOLDS: usize = 32_768;
pub const TOO_LONG: &str = "0 14\n";

/// The first line of a journal whose header is good.
pub fn edition_line(edition: u64, out: &mut String) {
    writeln!(out, "edition {edition}").expect("a string takes every line");
}

pub fn answer_line(number: usize, answer: u64, out: &mut String) {
    writeln!(out, "{number} {answer}").expect("a string takes every line");
}

pub fn malformed_line(number: usize, offset: usize, out: &mut String) {
    writeln!(out, "{number} 13 {offset}").expect("a string takes every line");
}

/// The accounts and totals that follow the answers.
pub fn tables(book: &Book, out: &mut String) {
    for row in &book.accounts {
        let (id, balance, allowance) = (row.id, row.balance, row.allowance);
        let (offered, accepted) = (row.offered, row.accepted);
        writeln!(out, "account {id} {balance} {allowance} {offered} {accepted}")
            .expect("a string takes every line");
    }
    let totals = &book.totals;
    writeln!(out, "totals {} {} {}", totals.financed, totals.repaid, totals.fees)
        .expect("a string takes every line");
}
