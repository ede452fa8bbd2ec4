//! Questions about document 01's session, with the answers worked out by hand.

use journal::{journal, session};
use layer::Original;
use plain::Plain;
use side::Side;

/// Account 1 lends: offer 20 on invoice 10 of account 2 settled by the second round, at 900. The
/// deadline is 100 + 604,800.
const WORKED_OUT: [(&str, &str); 29] = [
    ("offer 20", "0 20 10 1 900 500 86400 0 1 100 0\n"),
    ("offer 10", "4\n"),
    ("offers-by-invoice 10", "0 1\n20 10 1 900 500 86400 0 1 100 0\n"),
    ("offers-by-invoice 20", "0 0\n"),
    ("offers-by-lender 1", "0 1\n20 10 1 900 500 86400 0 1 100 0\n"),
    ("offers-by-lender 2", "0 0\n"),
    ("offers-by-status 1", "0 1\n20 10 1 900 500 86400 0 1 100 0\n"),
    ("offers-by-status 5", "0 0\n"),
    ("offers-by-status 6", "3\n"),
    ("pending-offers 10", "0 0\n"),
    ("all-offers", "0 1\n20 10 1 900 500 86400 0 1 100 0\n"),
    ("page 0 18446744073709551615", "0 1\n20 10 1 900 500 86400 0 1 100 0\n"),
    ("page 1 1", "0 0\n"),
    ("account 1", "0 4100 4100 900 900\n"),
    ("account 3", "0 0 0 0 0\n"),
    ("lender 1", "0 900 900 1 0\n"),
    ("active 1", "0 900\n"),
    ("schedule 20", "0 none\n"),
    ("negotiation 20", "0 2 604900 3\n1 900 500 86400 100\n0 900 500 86400 100\n"),
    ("negotiation 21", "0 0 0 0\n"),
    ("negotiation-status 20 604901", "0 3\n"),
    ("negotiation-status 21 0", "0 0\n"),
    ("due 20 18446744073709551615", "0 0 0\n"),
    ("count", "0 1\n"),
    ("window", "0 604800\n"),
    ("seats", "0 1\n"),
    ("threshold", "0 1\n"),
    ("paused", "0 0\n"),
    ("totals", "0 1 900 0 0\n"),
];

fn sides() -> [Box<dyn Side>; 2] {
    [Box::<Original>::default(), Box::<Plain>::default()]
}

#[test]
fn the_session_is_answered_as_worked_out() {
    let questions = WORKED_OUT.map(|(question, _)| format!("{question}\n")).concat();
    let answers = WORKED_OUT.map(|(_, answer)| answer).concat();
    for mut side in sides() {
        let given = side.answers(&journal(1, &session()), &questions);
        assert_eq!(given.as_deref(), Ok(answers.as_str()), "{}", side.name());
    }
}

/// The record before a malformed one is the last: offer 20 is pending and has no rounds.
#[test]
fn a_malformed_record_ends_the_replay() {
    let before = journal(1, &session()[..6]);
    let mut after = Vec::new();
    journal::write(1, &session()[6], &mut after);
    for malformed in [[0x20, 0, 0].as_slice(), &after[..3], &[0x36], &[]] {
        let bytes = [before.as_slice(), malformed, if malformed.len() == 3 { &after } else { &[] }];
        for mut side in sides() {
            let given = side.answers(&bytes.concat(), "negotiation 20\npending-offers 10\n");
            let pending = "0 0 0 0\n0 1\n20 10 1 1000 500 86400 0 0 0 0\n".to_string();
            assert_eq!(given, Ok(pending), "{}", side.name());
        }
    }
}

#[test]
fn a_bad_header_leaves_a_fresh_book() {
    for bytes in [&[][..], &[0x10, 0, 2, 0], &[0x10, 0, 2, 0, 0], &[0x21]] {
        for mut side in sides() {
            let given = side.answers(bytes, "count\naccount 1\nwindow\n");
            assert_eq!(given, Ok("0 0\n0 0 0 0 0\n0 604800\n".to_string()), "{}", side.name());
        }
    }
}

#[test]
fn a_line_that_is_no_question_is_named() {
    let lines = [
        "",
        "offer",
        "offer 1 2",
        "offer x",
        "offer 01",
        "offer +1",
        "offer -1",
        "offer  1",
        "Offer 1",
        "offer 1 ",
        "count 1",
        "offer 18446744073709551616",
        "offers",
        "due 1",
    ];
    for line in lines {
        for mut side in sides() {
            let given = side.answers(&journal(1, &[]), &format!("count\n{line}\n"));
            assert_eq!(given, Err(format!("no question: {line}")), "{}", side.name());
        }
    }
}
