//! The archive called from Rust: what comes back is what document 01 says of the session.

use solgaverna::{Journal, Lender, Offer, Offers, Refusal, Totals};

const SESSION: &str = "\
open-account 100 1
open-account 100 2
deposit 100 1 5000
approve 100 1 5000
register 100 2 10 2000
create 100 1 20 10 1000 500 86400 0
counter 100 2 20 900 500 86400 0
amend 100 1 20 900 500 86400 0
amend 100 1 20 900 500 86400 1
accept 100 2 20
";

const LISTING: &str = "\
edition 1
1 0
2 0
3 0
4 0
5 0
6 0
7 0
8 3
9 0
10 7
account 1 4100 4100 900 900
account 2 900 0 0 0
totals 900 0 0
";

fn session() -> Journal {
    let mut journal = Journal::new();
    journal.write(SESSION).expect("lines of commands");
    journal
}

#[test]
fn the_session_is_listed() {
    assert_eq!(session().listing(), LISTING);
}

#[test]
fn the_session_has_the_stored_bytes() {
    let stored = std::fs::read("../../crates/desk/stdin").expect("the stored session");
    assert_eq!(session().bytes(), stored);
}

#[test]
fn text_comes_back() {
    assert_eq!(session().text().expect("a whole journal"), SESSION);
}

#[test]
fn the_longest_lines_come_back() {
    let most = u64::MAX;
    let line = format!("repayment-account {most} {most} {most}\nopen-account {most} {most}\n");
    let text = line.repeat(50);
    let mut journal = Journal::new();
    journal.write(&text).expect("lines of commands");
    assert_eq!(journal.text().expect("a whole journal"), text);
}

#[test]
fn the_shortest_lines_are_written() {
    let text = "create 0 0 0 0 0 0 0 0\npause 0 0\n".repeat(50);
    let mut journal = Journal::new();
    journal.write(&text).expect("lines of commands");
    assert_eq!(journal.text().expect("a whole journal"), text);
}

#[test]
fn figures_after_the_session() {
    let journal = session();
    let lender = Lender { offered: 900, accepted: 900, pending: 1, repaid: 0 };
    assert_eq!(journal.lender(1), Ok(lender));
    assert_eq!(journal.lender(77), Ok(Lender::default()));
    let totals = Totals { offers: 1, financed: 900, repaid: 0, fees: 0 };
    assert_eq!(journal.totals(), Ok(totals));
}

#[test]
fn the_offer_is_listed_where_it_belongs() {
    let journal = session();
    let offer = Offer {
        id: 20,
        invoice: 10,
        lender: 1,
        amount: 900,
        rate: 500,
        duration: 86400,
        expires: 0,
        status: 1,
        funded: 100,
        repaid: 0,
    };
    let lists = [
        Offers::ByInvoice(10),
        Offers::ByLender(1),
        Offers::ByStatus(1),
        Offers::All,
        Offers::Page { offset: 0, limit: u64::MAX },
    ];
    for which in lists {
        assert_eq!(journal.offers(which), Ok(vec![offer]), "{which:?}");
    }
    let none = [
        Offers::ByInvoice(11),
        Offers::ByLender(2),
        Offers::ByStatus(0),
        Offers::PendingByInvoice(10),
        Offers::Page { offset: u64::MAX, limit: u64::MAX },
    ];
    for which in none {
        assert_eq!(journal.offers(which), Ok(Vec::new()), "{which:?}");
    }
}

#[test]
fn an_unlisted_status_is_refused() {
    for status in [6, 1 << 32, u64::MAX] {
        assert_eq!(session().offers(Offers::ByStatus(status)), Err(Refusal::Number(3)));
    }
}

#[test]
fn a_line_that_is_none_is_told_and_adds_nothing() {
    let mut journal = session();
    let refused = journal.write("pause 100 1\npause  100 1\n");
    assert_eq!(refused, Err(Refusal::Line(2)));
    assert_eq!(journal, session());
}

#[test]
fn malformed_bytes_are_refused() {
    let mut bytes = session().bytes().to_vec();
    bytes.pop();
    let journal = Journal::from(bytes);
    assert_eq!(journal.totals(), Err(Refusal::Number(13)));
    assert_eq!(journal.lender(1), Err(Refusal::Number(13)));
    assert_eq!(journal.offers(Offers::All), Err(Refusal::Number(13)));
    assert_eq!(journal.text(), Err(Refusal::Number(13)));
    assert!(journal.listing().contains("\n10 13 "));
    assert_eq!(Journal::from(Vec::new()).listing(), "0 13 0\ntotals 0 0 0\n");
}
