//! What the sample's questions are to meet: books with offers and without, ids that are there and ids
//! that are not, each sort of answer, and the times where an answer changes.

use std::collections::BTreeSet;

use plain::edition::keeps_terms;
use plain::schedule::{sums, FALLING};
use side::{Book, Offer};

use super::samples::Sample;
use crate::reference::Reference;

/// Each kind of question with the sorts of answer that it is to draw, as `sort` numbers them.
const OWED: [(&str, &[u64]); 20] = [
    ("offer", &[1, 104]),
    ("offers-by-invoice", &[0, 1, 2]),
    ("offers-by-lender", &[0, 1, 2]),
    ("offers-by-status", &[0, 1, 2, 103]),
    ("pending-offers", &[0, 1, 2]),
    ("all-offers", &[0, 1, 2]),
    ("page", &[0, 1, 2]),
    ("account", &[0, 1]),
    ("lender", &[0, 1]),
    ("active", &[0, 1]),
    ("schedule", &[0, 1, 2, 3]),
    ("negotiation", &[0, 2, 3, 4]),
    ("negotiation-status", &[0, 1, 2, 3, 4]),
    ("due", &[0, 1, 2]),
    ("count", &[0, 1, 2]),
    ("window", &[1]),
    ("seats", &[1]),
    ("threshold", &[1, 2]),
    ("paused", &[0, 1]),
    ("totals", &[0, 1]),
];

/// What only the book and the time asked for tell.
const EDGES: [(&str, &str); 17] = [
    ("negotiation", "twelve rounds"),
    ("negotiation", "sixteen rounds"),
    ("negotiation-status", "open at the deadline"),
    ("negotiation-status", "expired one later"),
    ("negotiation-status", "closed without an outcome"),
    ("due", "just before the first due"),
    ("due", "at the first due"),
    ("due", "of an offer rejected"),
    ("due", "of an offer repaid or defaulted"),
    ("due", "paid as far as is due"),
    ("due", "partly paid"),
    ("due", "partly paid in an edition before sums"),
    ("due", "more on the last than an installment"),
    ("due", "only what the others leave on the last"),
    ("schedule", "a falling one"),
    ("due", "nothing paid of a later falling installment"),
    ("due", "partly paid of a later falling installment"),
];

/// Something that the questions and their answers never meet, if there is such.
pub(super) fn unmet(samples: &[Sample], answers: &[String]) -> Option<String> {
    let mut met = BTreeSet::new();
    for (sample, answers) in samples.iter().zip(answers) {
        let mut reference = Reference::of_journal(&sample.bytes);
        reference.side().listing(&sample.bytes);
        let (book, mut lines) = (reference.book(), answers.lines());
        for question in sample.questions.lines() {
            let kind = question.split(' ').next().unwrap_or_default();
            let answer = lines.next().unwrap_or_default();
            (0..more(kind, answer)).for_each(|_| _ = lines.next());
            met.extend(facts(&book, kind, question, answer).into_iter().map(|fact| (kind, fact)));
        }
    }
    let missing = owed().into_iter().find(|(kind, fact)| !met.contains(&(*kind, fact.clone())));
    missing.map(|(kind, fact)| format!("no question {kind} meets: {fact}"))
}

/// The number of lines that follow an answer's first: a list and a negotiation have one for each row.
fn more(kind: &str, answer: &str) -> usize {
    let rows = is_list(kind) || kind == "negotiation";
    let counted = numbers(answer).get(1).filter(|_| rows).copied();
    counted.unwrap_or(0) as usize
}

fn is_list(kind: &str) -> bool {
    kind.contains("offers") || kind == "page"
}

fn numbers(line: &str) -> Vec<u64> {
    line.split(' ').filter_map(|word| word.parse().ok()).collect()
}

fn owed() -> Vec<(&'static str, String)> {
    let mut owed: Vec<_> = EDGES.iter().map(|(kind, edge)| (*kind, edge.to_string())).collect();
    owed.extend((0..=6).map(|code| ("offers-by-status", format!("status {code}"))));
    owed.push(("page", "past the end".to_string()));
    for (kind, sorts) in OWED {
        owed.extend(sorts.iter().map(|sort| (kind, format!("answer {sort}"))));
        let always = ["a book with offers", "a book without"];
        owed.extend(always.map(|fact| (kind, fact.to_string())));
        if table(&Book::fresh(), kind).is_some() {
            owed.extend(["an id", "an absent id"].map(|fact| (kind, fact.to_string())));
        }
    }
    owed
}

/// The ids among which a question's first number may be.
fn table(book: &Book, kind: &str) -> Option<Vec<u64>> {
    match kind {
        "offer" | "schedule" | "negotiation" | "negotiation-status" | "due" => {
            Some(book.offers.iter().map(|offer| offer.id).collect())
        }
        "account" | "lender" | "active" | "offers-by-lender" => {
            Some(book.accounts.iter().map(|account| account.id).collect())
        }
        "offers-by-invoice" | "pending-offers" => {
            Some(book.invoices.iter().map(|invoice| invoice.id).collect())
        }
        _ => None,
    }
}

fn facts(book: &Book, kind: &str, question: &str, answer: &str) -> Vec<String> {
    let (asked, answered) = (numbers(question), numbers(answer));
    let rows = if book.offers.is_empty() { "a book without" } else { "a book with offers" };
    let mut facts = vec![rows.to_string(), format!("answer {}", sort(kind, &answered))];
    if let Some(ids) = table(book, kind) {
        let there = if ids.contains(&asked[0]) { "an id" } else { "an absent id" };
        facts.push(there.to_string());
    }
    match (kind, asked.as_slice()) {
        ("offers-by-status", [code]) => facts.push(format!("status {code}")),
        ("page", [offset, _]) if (1..=*offset).contains(&(book.offers.len() as u64)) => {
            facts.push("past the end".to_string());
        }
        _ => facts.extend(edges(book, kind, &asked, &answered).into_iter().map(str::to_string)),
    }
    facts
}

/// A refusal's number with 100 added; else the answer's code, or how many, of which 2 stands for
/// more; else whether it has a number that is not 0.
fn sort(kind: &str, answered: &[u64]) -> u64 {
    match (kind, answered) {
        (_, [refusal, ..]) if *refusal != 0 => 100 + refusal,
        ("negotiation-status" | "paused", [_, code]) => *code,
        ("due", [_, number, _]) | ("count" | "threshold", [_, number]) => (*number).min(2),
        ("schedule", [_, _, code, ..]) => *code,
        ("negotiation", [.., outcome]) => *outcome,
        (_, [_, rows]) if is_list(kind) => (*rows).min(2),
        _ => answered.iter().any(|number| *number != 0).into(),
    }
}

/// Less is owed than an installment.
fn is_part(offer: &Offer, answered: &[u64]) -> bool {
    let installment = offer.schedule.map(|schedule| schedule.installment as u64);
    installment > answered.get(2).copied()
}

/// More is owed than an installment.
fn is_more(offer: &Offer, answered: &[u64]) -> bool {
    let installment = offer.schedule.map(|schedule| schedule.installment as u64);
    installment < answered.get(2).copied()
}

/// So much is repaid as all installments are, were the last as the others.
fn is_past_all(offer: &Offer) -> bool {
    offer.schedule.is_some_and(|row| offer.repaid >= row.installment * row.count as i64)
}

/// The amount repaid is just a sum of installments.
fn is_at_sum(offer: &Offer) -> bool {
    offer.schedule.is_some_and(|row| sums(&row).contains(&offer.repaid))
}

fn edges(book: &Book, kind: &str, asked: &[u64], answered: &[u64]) -> Vec<&'static str> {
    let offer = book.offers.iter().find(|offer| asked.first() == Some(&offer.id));
    let (Some(offer), Some(answer)) = (offer, answered.get(1).copied()) else { return Vec::new() };
    let now = asked.get(1).copied().unwrap_or(0);
    let first = offer.schedule.map_or(u64::MAX, |schedule| schedule.first);
    let late = offer.schedule.is_some() && now >= first;
    let partly = answer > 0 && offer.repaid > 0 && is_part(offer, answered);
    let by_sums = keeps_terms(book.edition);
    let falling = offer.schedule.is_some_and(|row| row.kind == FALLING);
    let met = [
        kind == "negotiation" && answer == 12,
        kind == "negotiation" && answer == 16,
        now == offer.deadline && answer == 1,
        now.checked_sub(1) == Some(offer.deadline) && offer.outcome == 0 && answer == 4,
        offer.outcome == 0 && answer == 2,
        offer.schedule.is_some() && now.checked_add(1) == Some(first) && answer == 0,
        late && now == first && answer > 0,
        late && offer.status == 2 && answer > 0,
        late && offer.status > 3 && answer == 0,
        late && offer.status < 4 && answer == 0,
        partly && by_sums,
        partly && !by_sums,
        late && answer > 0 && by_sums && is_more(offer, answered),
        late && answer > 0 && by_sums && is_past_all(offer),
        falling && answered.last() == Some(&FALLING),
        falling && answer > 1 && is_at_sum(offer),
        falling && answer > 1 && !is_at_sum(offer),
    ];
    let edges = EDGES.iter().zip(met).filter(|((of, _), met)| *met && *of == kind);
    edges.map(|((_, edge), _)| *edge).collect()
}
