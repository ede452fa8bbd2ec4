//! The program `ask`: questions as lines of text, and the lines that answer them.
//!
//! A question is a name and its numbers with one space before each. Its answer is a refusal's number
//! alone, or 0 and what was asked for; a list and a negotiation have a line more for each row.

use crate::query::Query;
use crate::rows::{Account, Book};
use crate::Side;

/// The longest answer: 64 offers of ten numbers.
const MOST_NUMBERS: usize = 640;

/// The answers to these lines from the book as it stands; `Err` names a line that is no question.
pub fn answered<S: Side>(side: &mut S, questions: &str) -> Result<String, String> {
    let mut out = String::new();
    for line in questions.lines() {
        let lines = answer(side, line).ok_or_else(|| format!("no question: {line}"))?;
        out += &lines.unwrap_or_else(|refusal| format!("{refusal}\n"));
    }
    Ok(out)
}

/// The lines of an answer, or a refusal's number.
type Lines = Result<String, u64>;

fn answer<S: Side>(side: &mut S, line: &str) -> Option<Lines> {
    let mut words = line.split(' ');
    let name = words.next()?;
    let numbers = words.map(number).collect::<Option<Vec<_>>>()?;
    Some(match (name, numbers.as_slice()) {
        ("offer", [id]) => one(side, Query::Offer(*id)),
        ("offers-by-invoice", [id]) => list(side, Query::ByInvoice(*id)),
        ("offers-by-lender", [id]) => list(side, Query::ByLender(*id)),
        ("offers-by-status", [code]) => list(side, Query::ByStatus(*code)),
        ("pending-offers", [id]) => list(side, Query::PendingByInvoice(*id)),
        ("all-offers", []) => list(side, Query::All),
        ("page", [offset, limit]) => list(side, Query::Page(*offset, *limit)),
        ("account", [id]) => Ok(account(&book(side), *id)),
        ("lender", [id]) => one(side, Query::Lender(*id)),
        ("active", [id]) => one(side, Query::ActiveTotal(*id)),
        ("schedule", [id]) => schedule(side, *id),
        ("negotiation", [id]) => negotiation(side, *id),
        ("negotiation-status", [id, now]) => one(side, Query::Status(*id, *now)),
        ("due", [id, now]) => one(side, Query::Due(*id, *now)),
        ("count", []) => one(side, Query::Count),
        ("window", []) => one(side, Query::Window),
        ("seats", []) => ask(side, Query::Seats).map(|both| line_of(&both[..1])),
        ("threshold", []) => ask(side, Query::Seats).map(|both| line_of(&both[1..])),
        ("paused", []) => one(side, Query::Paused),
        ("totals", []) => one(side, Query::Totals),
        _ => return None,
    })
}

/// A decimal number without a sign or zeros before it.
fn number(word: &str) -> Option<u64> {
    word.parse().ok().filter(|number: &u64| number.to_string() == word)
}

fn ask<S: Side>(side: &mut S, query: Query) -> Result<Vec<u64>, u64> {
    let mut numbers = vec![0; MOST_NUMBERS];
    let reply = side.ask(query, &mut numbers);
    numbers.truncate(reply.written);
    if reply.number == 0 {
        Ok(numbers)
    } else {
        Err(reply.number)
    }
}

/// 0 and these numbers.
fn line_of(numbers: &[u64]) -> String {
    format!("0 {}", row_of(numbers))
}

fn row_of(numbers: &[u64]) -> String {
    let words: Vec<_> = numbers.iter().map(u64::to_string).collect();
    words.join(" ") + "\n"
}

fn one<S: Side>(side: &mut S, query: Query) -> Lines {
    ask(side, query).map(|numbers| line_of(&numbers))
}

fn list<S: Side>(side: &mut S, query: Query) -> Lines {
    let numbers = ask(side, query)?;
    let offers = numbers.chunks(10);
    Ok(line_of(&[offers.len() as u64]) + &offers.map(row_of).collect::<String>())
}

fn schedule<S: Side>(side: &mut S, id: u64) -> Lines {
    let numbers = ask(side, Query::Schedule(id))?;
    Ok(if numbers.is_empty() { "0 none\n".to_string() } else { line_of(&numbers) })
}

fn negotiation<S: Side>(side: &mut S, id: u64) -> Lines {
    let numbers = ask(side, Query::Negotiation(id))?;
    let rounds = numbers[1..].chunks(5);
    let head = line_of(&[rounds.len() as u64, numbers[0], outcome(&book(side), id)]);
    Ok(head + &rounds.map(row_of).collect::<String>())
}

/// What no query tells is read of the whole book.
fn book<S: Side>(side: &S) -> Book {
    let mut flat = Vec::new();
    side.dump(&mut flat);
    Book::of_flat(&flat).expect("a dump shows a book")
}

fn outcome(book: &Book, id: u64) -> u64 {
    book.offers.iter().find(|offer| offer.id == id).map_or(0, |offer| offer.outcome)
}

fn account(book: &Book, id: u64) -> String {
    let row = book.accounts.iter().find(|account| account.id == id).copied();
    let Account { balance, allowance, offered, accepted, .. } = row.unwrap_or_default();
    line_of(&[balance, allowance, offered, accepted].map(|figure| figure as u64))
}
