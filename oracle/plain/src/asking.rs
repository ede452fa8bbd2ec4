//! The program `ask`, read a second time: questions and answers as words, from the rows.

use side::{Book, Offer, Query};

use crate::{queries, reading, Plain};

/// The answers to these lines from the book that a journal leaves; `Err` names a line that is no
/// question.
pub fn answers(plain: &mut Plain, journal: &[u8], questions: &str) -> Result<String, String> {
    reading::listing(plain, journal);
    let mut out = String::new();
    for question in questions.lines() {
        let Some(lines) = answer(plain, question) else {
            return Err(format!("no question: {question}"));
        };
        for line in lines {
            out.push_str(&line);
            out.push('\n');
        }
    }
    Ok(out)
}

fn answer(plain: &Plain, question: &str) -> Option<Vec<String>> {
    let words: Vec<&str> = question.split(' ').collect();
    if words.len() - 1 != arguments(words[0])? {
        return None;
    }
    let number = |place: usize| words.get(place).map_or(Some(0), |word| decimal(word));
    let (a, b) = (number(1)?, number(2)?);
    let single = |query| vec![told(plain, query).join(" ")];
    let many = |query| listed(plain, query);
    let book = plain.book();
    Some(match words[0] {
        "offer" => single(Query::Offer(a)),
        "account" => vec![account(book, a)],
        "lender" => single(Query::Lender(a)),
        "active" => single(Query::ActiveTotal(a)),
        "schedule" => match told(plain, Query::Schedule(a)).as_slice() {
            [zero] => vec![format!("{zero} none")],
            words => vec![words.join(" ")],
        },
        "negotiation" => negotiation(book.offers.iter().find(|offer| offer.id == a)),
        "negotiation-status" => single(Query::Status(a, b)),
        "due" => single(Query::Due(a, b)),
        "count" => single(Query::Count),
        "window" => single(Query::Window),
        "seats" => vec![format!("0 {}", book.seats)],
        "threshold" => vec![format!("0 {}", book.threshold)],
        "paused" => single(Query::Paused),
        "totals" => single(Query::Totals),
        "offers-by-invoice" => many(Query::ByInvoice(a)),
        "offers-by-lender" => many(Query::ByLender(a)),
        "offers-by-status" => many(Query::ByStatus(a)),
        "pending-offers" => many(Query::PendingByInvoice(a)),
        "all-offers" => many(Query::All),
        _ => many(Query::Page(a, b)),
    })
}

/// How many numbers follow a question's name, where it is one.
fn arguments(name: &str) -> Option<usize> {
    match name {
        "all-offers" | "count" | "window" | "seats" | "threshold" | "paused" | "totals" => Some(0),
        "offer" | "account" | "lender" | "active" | "schedule" | "negotiation" => Some(1),
        "offers-by-invoice" | "offers-by-lender" | "offers-by-status" | "pending-offers" => Some(1),
        "page" | "negotiation-status" | "due" => Some(2),
        _ => None,
    }
}

/// Digits alone, the first of more than one not 0, that make a number of 64 bits.
fn decimal(word: &str) -> Option<u64> {
    let digits = word.bytes().all(|byte| byte.is_ascii_digit());
    let short = word == "0" || !word.starts_with('0');
    word.parse().ok().filter(|_| digits && short)
}

/// 0 and the answer's numbers, or a refusal's number, as words.
fn told(plain: &Plain, query: Query) -> Vec<String> {
    let (first, numbers) = match queries::answer(&plain.book, query, plain.slip) {
        Ok(numbers) => (0, numbers),
        Err(refusal) => (refusal, Vec::new()),
    };
    [first].iter().chain(&numbers).map(u64::to_string).collect()
}

/// The number of offers, then a line of each; refused, the number alone.
fn listed(plain: &Plain, query: Query) -> Vec<String> {
    let words = told(plain, query);
    if words[0] != "0" {
        return words;
    }
    let rows: Vec<String> = words[1..].chunks(10).map(|row| row.join(" ")).collect();
    let mut lines = vec![format!("0 {}", rows.len())];
    lines.extend(rows);
    lines
}

fn account(book: &Book, id: u64) -> String {
    match book.accounts.iter().find(|row| row.id == id) {
        Some(row) => {
            format!("0 {} {} {} {}", row.balance, row.allowance, row.offered, row.accepted)
        }
        None => "0 0 0 0 0".to_string(),
    }
}

fn negotiation(offer: Option<&Offer>) -> Vec<String> {
    let Some(offer) = offer else { return vec!["0 0 0 0".to_string()] };
    let mut lines = vec![format!("0 {} {} {}", offer.rounds.len(), offer.deadline, offer.outcome)];
    for round in &offer.rounds {
        let (party, amount, rate) = (round.party, round.amount, round.rate);
        lines.push(format!("{party} {amount} {rate} {} {}", round.duration, round.time));
    }
    lines
}
