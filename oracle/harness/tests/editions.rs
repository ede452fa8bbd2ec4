//! What an edition answers otherwise than the one before, with the smallest input of each: the plain model,
//! and the proved book where its command is named.

use harness::script::steps;
use journal::LATEST;
use plain::Plain;
use port::Port;
use side::{Account, Book, Invoice, Offer, Query, Round, Schedule, Side};

/// Accounts 1 and 2, an invoice of account 2 and the least offer on it.
const OFFER: &str = "open caller=1 : 0
open caller=2 : 0
register caller=2 id=10 amount=1 : 0
create caller=1 id=20 invoice=10 amount=1 rate=1 : 0
";

fn sides() -> Vec<Box<dyn Side>> {
    let command = std::env::var(port::COMMAND).ok();
    let proved = command.map(|command| Port::start(&command).expect("the program starts"));
    let proved = proved.map(|proved| Box::new(proved) as Box<dyn Side>);
    [Box::<Plain>::default() as Box<dyn Side>].into_iter().chain(proved).collect()
}

/// The answer to the last command, from a fresh book or from given rows, which all sides give.
fn last(edition: u64, rows: Option<&Book>, text: &str) -> u64 {
    let mut answers = Vec::new();
    for mut side in sides() {
        side.reset(edition);
        if let Some(book) = rows {
            let mut flat = Vec::new();
            Book { edition, ..book.clone() }.flat(&mut flat);
            side.load(&flat);
        }
        let mut last = 0;
        for (command, _) in steps(text) {
            let mut record = Vec::new();
            journal::write(edition, &command, &mut record);
            last = side.apply(&record);
        }
        answers.push(last);
    }
    assert!(answers.iter().all(|answer| *answer == answers[0]), "{answers:?}: {text}");
    answers[0]
}

/// The last answers in editions 1 and 2.
fn both(rows: Option<&Book>, text: &str) -> [u64; 2] {
    [1, 2].map(|edition| last(edition, rows, text))
}

#[test]
fn an_amount_above_the_invoice_is_refused() {
    let with = |line: &str| both(None, &[OFFER, line].concat());
    assert_eq!(with("amend caller=1 id=20 amount=2 rate=1 round=0 : 0"), [0, 3]);
    assert_eq!(with("counter caller=2 id=20 amount=2 rate=1 round=0 : 0"), [0, 3]);
    assert_eq!(with("amend caller=1 id=20 amount=1 rate=2 round=0 : 0"), [0, 0]);
    assert_eq!(with("counter caller=2 id=20 amount=1 rate=2 round=0 : 0"), [0, 0]);
}

#[test]
fn the_amount_comes_after_the_party_and_before_the_negotiation() {
    let with = |line: &str| both(None, &[OFFER, "withdraw caller=1 id=20 : 0\n", line].concat());
    assert_eq!(with("amend caller=2 id=20 amount=2 rate=1 round=0 : 0"), [6, 6]);
    assert_eq!(with("counter caller=1 id=20 amount=2 rate=1 round=0 : 0"), [6, 6]);
    assert_eq!(with("amend caller=1 id=20 amount=2 rate=1 round=0 : 0"), [7, 3]);
    assert_eq!(with("counter caller=2 id=20 amount=2 rate=1 round=0 : 0"), [7, 3]);
    assert_eq!(with("amend caller=1 id=20 amount=2 rate=0 round=0 : 0"), [3, 3]);
}

/// No journal makes such a book: an offer whose invoice has no row.
fn without_invoice() -> Book {
    let account = |id| Account { id, ..Account::default() };
    let (rate, duration) = (1, 86_400);
    let offer =
        Offer { id: 20, invoice: 10, lender: 1, amount: 1, rate, duration, ..Offer::default() };
    Book { accounts: vec![account(1), account(2)], offers: vec![offer], ..Book::fresh() }
}

#[test]
fn a_missing_invoice_is_not_found() {
    let book = without_invoice();
    let with = |line: &str| both(Some(&book), line);
    assert_eq!(with("amend caller=1 id=20 amount=1 rate=2 round=0 : 0"), [0, 4]);
    assert_eq!(with("amend caller=1 id=20 amount=1 rate=2 round=9 : 0"), [3, 4]);
    assert_eq!(with("amend caller=2 id=20 amount=1 rate=2 round=0 : 0"), [6, 6]);
    assert_eq!(with("amend caller=1 id=20 amount=1 rate=0 round=0 : 0"), [3, 3]);
    assert_eq!(with("counter caller=2 id=20 amount=1 rate=2 round=0 : 0"), [4, 4]);
}

/// Terms above the invoice's amount may stand in a book; edition 2 refuses to put them down again,
/// accepts what is within it, and lets them settle.
#[test]
fn terms_above_the_invoice_may_stand() {
    let mut book = without_invoice();
    book.invoices.push(Invoice { id: 10, originator: 2, amount: 1, status: 0 });
    book.offers[0].amount = 5;
    book.accounts[0] = Account { balance: 9, allowance: 9, offered: 5, ..book.accounts[0] };
    let with = |book: &Book, line: &str| both(Some(book), line);
    assert_eq!(with(&book, "accept caller=2 id=20 : 0"), [0, 0]);
    assert_eq!(with(&book, "counter caller=2 id=20 amount=5 rate=1 round=0 : 0"), [0, 3]);
    assert_eq!(with(&book, "amend caller=1 id=20 amount=1 rate=1 round=0 : 0"), [0, 0]);
    let round = Round { party: 1, amount: 5, rate: 1, duration: 86_400, time: 100 };
    book.offers[0].rounds.push(round);
    book.offers[0].deadline = 200;
    assert_eq!(with(&book, "amend caller=1 id=20 amount=5 rate=1 round=1 : 0"), [0, 3]);
}

/// A fresh window ends the negotiation after seven days, from edition 3 on after three.
#[test]
fn a_fresh_window_is_shorter_from_edition_3_on() {
    let first = [OFFER, "counter now=100 caller=2 id=20 amount=1 rate=2 round=0 : 0\n"].concat();
    for (seconds, answers) in
        [(259_200, [0, 0, 0]), (259_201, [0, 0, 7]), (604_800, [0, 0, 7]), (604_801, [7, 7, 7])]
    {
        let at = 100 + seconds;
        let line = format!("counter now={at} caller=2 id=20 amount=1 rate=3 round=1 : 0");
        let text = [first.as_str(), &line].concat();
        assert_eq!([1, 2, 3].map(|edition| last(edition, None, &text)), answers, "{seconds}");
    }
}

/// An offer has twelve rounds, from edition 4 on sixteen; a round after one that is refused is a wrong
/// one.
#[test]
fn an_offer_has_more_rounds_from_edition_4_on() {
    for party in ["amend caller=1", "counter caller=2"] {
        for (rounds, answers) in [
            (11, [0, 0, 0, 0, 0]),
            (12, [7, 7, 7, 0, 0]),
            (15, [3, 3, 3, 0, 0]),
            (16, [3, 3, 3, 7, 7]),
        ] {
            let lines = format!("for 0 {rounds} {party} id=20 amount=1 rate=2 round=% : 0");
            let text = [OFFER, &lines].concat();
            let given = [1, 2, 3, 4, 5].map(|edition| last(edition, None, &text));
            assert_eq!(given, answers, "{party} {rounds}");
        }
    }
}

/// No more rounds may stand in a book than its edition has.
#[test]
fn a_book_with_a_round_too_many_is_unsound() {
    let book = |rounds| {
        let mut book = without_invoice();
        let round = Round { party: 0, amount: 1, rate: 1, duration: 86_400, time: 100 };
        book.offers[0].rounds = vec![round; rounds];
        book
    };
    let opens = |edition, rounds| last(edition, Some(&book(rounds)), "open caller=3 : 0");
    assert_eq!([1, 2, 3, 4].map(|edition| opens(edition, 12)), [0, 0, 0, 0]);
    assert_eq!([1, 2, 3, 4].map(|edition| opens(edition, 13)), [15, 15, 15, 0]);
    assert_eq!([1, 2, 3, 4].map(|edition| opens(edition, 17)), [15, 15, 15, 15]);
}

/// An offer of 1000 at 500 with three weekly installments from 1,000,000 on, and this much repaid.
fn repaid(amount: u64) -> String {
    format!(
        "use base
        schedule caller=1 id=20 count=3 code=1 first=1000000 : 0
        repayment-account id=3 : 0
        repaid caller=3 id=20 amount={amount} : 0"
    )
}

/// What all sides say is due on offer 20 after these commands, and what is owed on it.
fn due(edition: u64, text: &str, now: u64) -> [u64; 2] {
    let mut answers = Vec::new();
    for mut side in sides() {
        side.reset(edition);
        for (command, _) in steps(text) {
            let mut record = Vec::new();
            journal::write(edition, &command, &mut record);
            assert_eq!(side.apply(&record), 0, "{command}");
        }
        let mut due = [9; 2];
        side.ask(Query::Due(20, now), &mut due);
        answers.push(due);
    }
    assert!(answers.iter().all(|answer| *answer == answers[0]), "{answers:?}: {text}");
    answers[0]
}

/// Three installments of 349 make 1047; from edition 5 on the last is 352 and they make 1050.
#[test]
fn the_last_installment_carries_the_rest_from_edition_5_on() {
    for (amount, before, since) in [
        (0, [1, 349], [1, 349]),
        (348, [1, 1], [1, 1]),
        (349, [2, 349], [2, 349]),
        (697, [2, 1], [2, 1]),
        (698, [3, 349], [3, 352]),
        (1_046, [3, 1], [3, 4]),
        (1_047, [0, 0], [3, 3]),
        (1_049, [0, 0], [3, 1]),
        (1_050, [0, 0], [0, 0]),
        (4_000_000_000_000_000, [0, 0], [0, 0]),
    ] {
        for edition in 1..=LATEST {
            let expected = if edition < 5 { before } else { since };
            for now in [2_209_600, u64::MAX] {
                assert_eq!(due(edition, &repaid(amount), now), expected, "{edition} {amount}");
            }
            let early = due(edition, &repaid(amount), 2_209_599);
            let fallen = expected[0] < 3 && amount < 698;
            assert_eq!(early, if fallen { expected } else { [0, 0] }, "{edition} {amount}");
            assert_eq!(due(edition, &repaid(amount), 999_999), [0, 0], "{edition} {amount}");
        }
    }
}

/// Repaid and Defaulted owe nothing, whatever is left.
#[test]
fn nothing_is_owed_where_nothing_is_due() {
    for edition in 1..=LATEST {
        for (status, expected) in
            [(0, [2, 1]), (1, [2, 1]), (2, [2, 1]), (3, [2, 1]), (4, [0, 0]), (5, [0, 0])]
        {
            let text = format!("{}\nstatus caller=3 id=20 code={status} : 0", repaid(697));
            assert_eq!(due(edition, &text, u64::MAX), expected, "{edition} {status}");
        }
        assert_eq!(due(edition, "use base", u64::MAX), [0, 0]);
        assert_eq!(due(edition, "open caller=1 : 0", u64::MAX), [0, 0]);
    }
}

/// The offer is amended after its schedule was made: that one's total stays 1050, and the next one's
/// is of the new terms.
#[test]
fn a_schedule_keeps_the_terms_of_its_making() {
    let amended = format!("{}\namend caller=1 id=20 amount=7 rate=9999 round=0 : 0", repaid(698));
    assert_eq!(due(5, &amended, u64::MAX), [3, 352]);
    assert_eq!(due(4, &amended, u64::MAX), [3, 349]);
    let again = "schedule caller=1 id=20 count=3 code=1 first=1000000 : 0
        repaid caller=3 id=20 amount=6 : 0";
    let again = format!("{amended}\n{again}");
    assert_eq!(due(5, &again, u64::MAX), [3, 7]);
    assert_eq!(due(4, &again, u64::MAX), [3, 3]);
}

/// A schedule that keeps terms keeps those of its installment, and none before edition 5.
#[test]
fn a_book_with_other_terms_in_a_schedule_is_unsound() {
    let book = |amount, rate, installment| {
        let mut book = without_invoice();
        let (count, code, kind) = (3, 1, 0);
        let schedule = Schedule { count, code, installment, first: 1, amount, rate, kind };
        book.offers[0].schedule = Some(schedule);
        book
    };
    let opens = |edition, book: &Book| last(edition, Some(book), "open caller=3 : 0");
    for edition in 1..=LATEST {
        let (before, since) = if edition < 5 { (0, 15) } else { (15, 0) };
        assert_eq!(opens(edition, &book(0, 0, 349)), before, "{edition}");
        for (amount, rate, installment) in [(1_000, 500, 349), (999, 510, 349), (1_001, 481, 349)] {
            assert_eq!(opens(edition, &book(amount, rate, installment)), since, "{edition}");
        }
        for (amount, rate, installment) in [
            (1_000, 500, 348),
            (1_000, 500, 350),
            (998, 500, 349),
            (1_002, 500, 349),
            (1_000, 480, 349),
            (1_000, 511, 349),
            (1_000, 0, 333),
            (1_000, 10_001, 666),
            (0, 500, 349),
            (-1_000, 500, 349),
        ] {
            assert_eq!(opens(edition, &book(amount, rate, installment)), 15, "{edition}");
        }
    }
}

/// The answer to a schedule of offer 20, which is of 1000 at 500, with these last fields.
fn scheduled(edition: u64, fields: &str) -> u64 {
    let line = format!("schedule {fields} : 0");
    last(edition, None, &["use base\n", &line].concat())
}

#[test]
fn an_unknown_kind_is_refused_before_the_offer() {
    let good = "caller=1 id=20 count=3 code=1 first=200";
    assert_eq!([0, 1].map(|kind| scheduled(5, &format!("{good} kind={kind}"))), [0, 0]);
    for kind in [2, 3, 1 << 32, (1 << 32) + 1, 1 << 63, u64::MAX] {
        for (rest, otherwise) in [
            (good, 0),
            ("caller=1 id=99 count=3 code=1 first=200", 4),
            ("caller=3 id=20 count=3 code=1 first=200", 6),
            ("caller=1 id=20 count=0 code=1 first=200", 3),
            ("caller=1 id=20 count=3 code=1 first=100", 3),
            ("caller=1 id=20 count=3 code=4 first=200", 3),
            ("caller=1 id=20 count=1001 code=1 first=200", 3),
        ] {
            assert_eq!(scheduled(5, &format!("{rest} kind={kind}")), 3, "{rest} {kind}");
            assert_eq!(scheduled(5, &format!("{rest} kind=1")), otherwise, "{rest}");
        }
        let unopened = format!("caller=9 id=20 count=3 code=1 first=200 kind={kind}");
        assert_eq!(scheduled(5, &unopened), 4);
        let paused = format!("use base\npause : 0\nschedule {good} kind={kind} : 0");
        assert_eq!(last(5, None, &paused), 1);
    }
}

/// Each installment of a falling schedule repays one at least, as one of a flat schedule does.
#[test]
fn a_falling_schedule_repays_one_an_installment_at_least() {
    for kind in [0, 1] {
        let count = |count| {
            scheduled(5, &format!("caller=2 id=20 count={count} code=1 first=200 kind={kind}"))
        };
        assert_eq!([1, 999, 1_000, 1_001, 1_200].map(count), [0, 0, 0, 3, 3], "{kind}");
    }
}

/// A record of a schedule with a kind is one of edition 5, and one without it is of an earlier edition.
#[test]
fn a_schedules_kind_is_a_field_of_edition_5() {
    let line = "schedule caller=1 id=20 count=3 code=1 first=200 kind=1 : 0";
    let (command, _) = steps(line)[0];
    for edition in 1..=LATEST {
        for of in 1..=LATEST {
            let mut record = Vec::new();
            journal::write(of, &command, &mut record);
            let fits = (of >= 5) == (edition >= 5);
            for mut side in sides() {
                side.reset(edition);
                let answer = side.apply(&record);
                assert_eq!(answer, if fits { 4 } else { 13 }, "{edition} {of}: {}", side.name());
                let bytes = [journal::header(edition).as_slice(), &record].concat();
                let listing = String::from_utf8(side.listing(&bytes)).unwrap();
                let line = if fits { "1 4\n" } else { "1 13 5\n" };
                let expected = format!("edition {edition}\n{line}totals 0 0 0\n");
                assert_eq!(listing, expected, "{edition} {of}: {}", side.name());
            }
        }
    }
}

/// Offer 20 with a schedule of a kind, and this much repaid.
fn repaid_of(kind: u64, amount: u64) -> String {
    repaid(amount).replace("first=1000000", &format!("first=1000000 kind={kind}"))
}

/// 349, 344 and 339 make 1032; what the flat schedule of the same terms owes stands beside it.
#[test]
fn a_falling_schedule_is_due_by_its_sums() {
    for (amount, falling, flat) in [
        (0, [1, 349], [1, 349]),
        (348, [1, 1], [1, 1]),
        (349, [2, 344], [2, 349]),
        (692, [2, 1], [2, 6]),
        (693, [3, 339], [2, 5]),
        (698, [3, 334], [3, 352]),
        (1_031, [3, 1], [3, 19]),
        (1_032, [0, 0], [3, 18]),
        (1_050, [0, 0], [0, 0]),
        (4_000_000_000_000_000, [0, 0], [0, 0]),
    ] {
        for now in [2_209_600, u64::MAX] {
            assert_eq!(due(5, &repaid_of(1, amount), now), falling, "{amount}");
            assert_eq!(due(5, &repaid_of(0, amount), now), flat, "{amount}");
        }
        let early = due(5, &repaid_of(1, amount), 2_209_599);
        assert_eq!(early, if amount < 693 { falling } else { [0, 0] }, "{amount}");
        assert_eq!(due(5, &repaid_of(1, amount), 999_999), [0, 0], "{amount}");
    }
}

/// The kind is the last of a schedule's five numbers, 0 in every earlier edition.
#[test]
fn a_schedule_says_its_kind() {
    for (edition, kind) in [(1, 0), (2, 0), (3, 0), (4, 0), (5, 0), (5, 1)] {
        for mut side in sides() {
            side.reset(edition);
            for (command, _) in steps(&repaid_of(kind, 0)) {
                let mut record = Vec::new();
                journal::write(edition, &command, &mut record);
                assert_eq!(side.apply(&record), 0, "{command}");
            }
            let mut numbers = [9; 6];
            let reply = side.ask(Query::Schedule(20), &mut numbers);
            assert_eq!((reply.number, reply.written), (0, 5), "{}", side.name());
            assert_eq!(numbers, [3, 1, 349, 1_000_000, kind, 9], "{}", side.name());
        }
    }
}

/// 5 at 7500 in three: the first installment is 1 of a flat schedule, 2 of a falling one.
#[test]
fn a_book_with_another_kind_of_schedule_is_unsound() {
    let opens = |edition, count, amount, installment, kind| {
        let mut book = without_invoice();
        let schedule =
            Schedule { count, code: 1, installment, first: 1, amount, rate: 7_500, kind };
        let kept = if edition < 5 { Schedule { amount: 0, rate: 0, ..schedule } } else { schedule };
        book.offers[0].schedule = Some(kept);
        last(edition, Some(&book), "open caller=3 : 0")
    };
    for edition in 1..=LATEST {
        let falls = if edition < 5 { 15 } else { 0 };
        assert_eq!(opens(edition, 3, 5, 1, 0), 0, "{edition}");
        assert_eq!(opens(edition, 3, 5, 2, 1), falls, "{edition}");
        for kind in [2, 3] {
            assert_eq!(opens(edition, 3, 5, 1, kind), 15, "{edition}");
            assert_eq!(opens(edition, 3, 5, 2, kind), 15, "{edition}");
        }
    }
    for (count, amount, installment, kind) in
        [(3, 5, 2, 0), (3, 5, 1, 1), (3, 5, 3, 1), (3, 2, 1, 1), (3, 2, 0, 1), (1_200, 1_199, 1, 1)]
    {
        assert_eq!(opens(5, count, amount, installment, kind), 15, "{count} {amount} {kind}");
    }
    assert_eq!([opens(5, 3, 3, 1, 1), opens(5, 1_200, 1_200, 1, 1)], [0, 0]);
}

#[test]
fn a_fresh_book_says_its_edition() {
    for edition in 1..=LATEST {
        for mut side in sides() {
            let (mut flat, mut fresh) = (Vec::new(), Vec::new());
            side.reset(edition);
            side.dump(&mut flat);
            plain::edition::fresh(edition).flat(&mut fresh);
            assert_eq!(flat, fresh, "{}", side.name());
        }
    }
}

#[test]
fn a_header_names_the_edition() {
    let text = [OFFER, "amend caller=1 id=20 amount=2 rate=1 round=0 : 0"].concat();
    let commands: Vec<_> = steps(&text).into_iter().map(|(command, _)| command).collect();
    for mut side in sides() {
        for (edition, answer) in [(1, "5 0\n"), (2, "5 3\n")] {
            let listing = side.listing(&journal::journal(edition, &commands));
            assert!(String::from_utf8(listing).unwrap().contains(answer), "{}", side.name());
        }
        for edition in [0, LATEST + 1, 65_535] {
            let listing = side.listing(&journal::journal(edition, &commands));
            assert_eq!(listing, b"0 13 0\ntotals 0 0 0\n", "{}", side.name());
        }
    }
}
