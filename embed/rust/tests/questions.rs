//! Questions asked from Rust, held to the stored answers of cases/, none of which comes from the proved book.

use solgaverna::{Answer, Journal, Question, Refusal};
use std::fs;
use std::path::PathBuf;

/// A journal, questions about its book, and the answers.
struct Stored {
    name: PathBuf,
    journal: Journal,
    questions: String,
    answers: String,
}

fn stored(folder: &str) -> Vec<Stored> {
    let folder = fs::read_dir(format!("../../cases/{folder}")).expect("the stored cases");
    let names = folder.map(|file| file.expect("a file of the folder").path());
    let asked = names.filter(|name| name.extension().is_some_and(|it| it == "questions"));
    let text = |name: &PathBuf, kind| fs::read_to_string(name.with_extension(kind)).expect("a file of lines");
    asked
        .map(|name| Stored {
            journal: Journal::from(fs::read(name.with_extension("journal")).expect("a journal")),
            questions: text(&name, "questions"),
            answers: text(&name, "answers"),
            name,
        })
        .collect()
}

/// A line that asks for a lookup.
fn lookup(line: &str) -> Option<Question> {
    let mut words = line.split(' ');
    let name = words.next()?;
    let mut number = || words.next().expect("a number").parse().expect("a number");
    Some(match name {
        "offer" => Question::Offer(number()),
        "account" => Question::Account(number()),
        "lender" => Question::Lender(number()),
        "schedule" => Question::Schedule(number()),
        "negotiation-status" => Question::NegotiationStatus { offer: number(), now: number() },
        "due" => Question::Due { offer: number(), now: number() },
        "count" => Question::Count,
        "window" => Question::Window,
        "seats" => Question::Seats,
        "threshold" => Question::Threshold,
        "paused" => Question::Paused,
        "totals" => Question::Totals,
        _ => return None,
    })
}

/// The line that `ask` has for an answer.
fn line(question: Question, answer: &Answer) -> String {
    let words = |values: &[u64]| values.iter().map(|value| format!(" {value}")).collect::<String>();
    match (question, answer.values()) {
        (Question::Schedule(_), Ok([])) => "0 none".to_string(),
        (_, Ok(values)) => format!("0{}", words(values)),
        (_, Err(Refusal::Number(number))) => format!("{number}"),
        (_, Err(refusal)) => panic!("{question:?}: {refusal}"),
    }
}

fn session() -> Journal {
    Journal::from(fs::read("../../crates/desk/stdin").expect("the stored session"))
}

#[test]
fn stored_questions_have_the_stored_answers() {
    for (folder, least) in [("edition-1", 7), ("vectors", 40)] {
        let mut told = 0;
        for case in stored(folder) {
            // the program `ask` answers from the book before a malformed record; the library refuses the journal
            let whole = case.journal.text().is_ok();
            let answers = if whole { Ok(case.answers) } else { Err(Refusal::Number(13)) };
            assert_eq!(case.journal.ask(&case.questions), answers, "{}", case.name.display());
            told += usize::from(whole);
        }
        assert!(told >= least, "{folder}: {told} journals are whole");
    }
}

#[test]
fn words_agree_with_text() {
    let mut asked = 0;
    for case in ["edition-1", "vectors"].into_iter().flat_map(stored).filter(|case| case.journal.text().is_ok()) {
        let lines = case.questions.lines().filter(|line| lookup(line).is_some());
        let text: String = lines.map(|line| format!("{line}\n")).collect();
        let questions: Vec<_> = text.lines().filter_map(lookup).collect();
        let answers = case.journal.answers(&questions).expect("a whole journal");
        let words: String =
            questions.iter().zip(&answers).map(|(question, answer)| line(*question, answer) + "\n").collect();
        assert_eq!(case.journal.ask(&text), Ok(words), "{}", case.name.display());
        asked += answers.len();
    }
    assert!(asked >= 700, "{asked} lookups");
}

#[test]
fn lookups_after_the_session() {
    let questions = [
        Question::Offer(20),
        Question::Offer(21),
        Question::Schedule(20),
        Question::Deadline(20),
        Question::Deadline(u64::MAX),
        Question::Totals,
    ];
    let answers = session().answers(&questions).expect("a whole journal");
    let values: Vec<_> = answers.iter().map(Answer::values).collect();
    let expected: [Result<&[u64], Refusal>; 6] = [
        Ok(&[20, 10, 1, 900, 500, 86400, 0, 1, 100, 0]),
        Err(Refusal::Number(4)),
        Ok(&[]),
        Ok(&[604900]),
        Ok(&[0]),
        Ok(&[1, 900, 0, 0]),
    ];
    assert_eq!(values, expected);
    assert_eq!(session().answers(&[]), Ok(Vec::new()));
}

#[test]
fn a_line_that_is_no_question_is_told() {
    for (line, questions) in [(1, "\n"), (1, "count"), (2, "count\nofer 20\n"), (3, "count\ncount\nopen-account 100 1\n")] {
        assert_eq!(session().ask(questions), Err(Refusal::Line(line)), "{questions:?}");
    }
    assert_eq!(session().ask(""), Ok(String::new()));
}

#[test]
fn long_answers_find_room() {
    let questions = "all-offers\nnegotiation 20\n".repeat(1000);
    let answer = "0 1\n20 10 1 900 500 86400 0 1 100 0\n0 2 604900 3\n1 900 500 86400 100\n0 900 500 86400 100\n";
    assert_eq!(session().ask(&questions), Ok(answer.repeat(1000)));
}

#[test]
fn a_malformed_journal_answers_nothing() {
    let mut bytes = session().bytes().to_vec();
    bytes.pop();
    let journal = Journal::from(bytes);
    assert_eq!(journal.ask("count\n"), Err(Refusal::Number(13)));
    assert_eq!(journal.ask(""), Err(Refusal::Number(13)));
    assert_eq!(journal.ask("counts\n"), Err(Refusal::Line(1)));
    assert_eq!(journal.answers(&[Question::Count]), Err(Refusal::Number(13)));
}

/// A book of an edition with an offer, its flat schedule of weekly installments from 1,000,000 on, and an amount repaid.
fn repaid(edition: u64, amount: u64, rate: u64, count: u64, repaid: u64) -> Journal {
    let kind = if edition < 5 { "" } else { " 0" };
    scheduled(edition, kind, [amount, rate, count, repaid])
}

/// The same with a falling one, in edition 5.
fn falling(amount: u64, rate: u64, count: u64, repaid: u64) -> Journal {
    scheduled(5, " 1", [amount, rate, count, repaid])
}

fn scheduled(edition: u64, kind: &str, [amount, rate, count, repaid]: [u64; 4]) -> Journal {
    let mut journal = Journal::of_edition(edition).expect("an edition that there is");
    let text = format!(
        "open-account 100 1\nopen-account 100 2\nregister 100 2 10 {amount}\ncreate 100 1 20 10 {amount} {rate} 86400 0\n\
         schedule 100 1 20 {count} 1 1000000{kind}\nrepayment-account 100 1 1\nrepaid 100 1 20 {repaid}\n"
    );
    journal.write(&text).expect("lines of commands");
    journal
}

fn due(journal: &Journal, now: u64) -> String {
    journal.ask(&format!("due 20 {now}\n")).expect("a sound book")
}

#[test]
fn document_01s_dues_in_each_edition() {
    for edition in 1..=5 {
        for (now, paid, answer) in [
            (999_999, 0, "0 0 0\n"),
            (1_000_000, 0, "0 1 349\n"),
            (1_604_799, 349, "0 0 0\n"),
            (1_604_800, 349, "0 2 349\n"),
            (1_604_800, 697, "0 2 1\n"),
            (1_604_800, 698, "0 0 0\n"),
        ] {
            assert_eq!(due(&repaid(edition, 1000, 500, 3, paid), now), answer, "edition {edition}, {now}, {paid}");
        }
        // the last carries the rest in edition 5
        let last = [["0 3 349\n", "0 0 0\n", "0 0 0\n"], ["0 3 352\n", "0 3 1\n", "0 0 0\n"]][usize::from(edition == 5)];
        for (paid, answer) in [698, 1049, 1050].into_iter().zip(last) {
            assert_eq!(due(&repaid(edition, 1000, 500, 3, paid), u64::MAX), answer, "edition {edition}, {paid}");
        }
    }
}

#[test]
fn interest_on_what_is_outstanding() {
    // 333 + 16, 333 + 11, 334 + 5
    for (paid, answer) in [
        (0, "0 1 349\n"),
        (348, "0 1 1\n"),
        (349, "0 2 344\n"),
        (692, "0 2 1\n"),
        (693, "0 3 339\n"),
        (1031, "0 3 1\n"),
        (1032, "0 0 0\n"),
    ] {
        assert_eq!(due(&falling(1000, 500, 3, paid), u64::MAX), answer, "{paid}");
    }
    // 10^12 at 10,000 basis points in 1,200: 833,333,333 and as much interest at first
    let largest = falling(1_000_000_000_000, 10_000, 1200, 0);
    assert_eq!(largest.ask("schedule 20\n").as_deref(), Ok("0 1200 1 1666666666 1000000 1\n"));
    assert_eq!(due(&falling(1_000_000_000_000, 10_000, 1200, 4_000_000_000_000_000), u64::MAX), "0 0 0\n");
}

#[test]
fn a_schedule_of_each_kind_over_a_snapshot_and_back() {
    for (kind, journal) in [(0, repaid(5, 1000, 500, 3, 349)), (1, falling(1000, 500, 3, 349))] {
        let kept = journal.snapshot().expect("a whole journal");
        let none = Journal::of_edition(5).expect("edition 5");
        let told = kept.ask(&none, "schedule 20\ndue 20 18446744073709551615\n").expect("a sound snapshot");
        assert_eq!(told, format!("0 3 1 349 1000000 {kind}\n0 2 {}\n", [349, 344][kind]));
        assert_eq!(kept.then(&none), Ok(kept.clone()));
    }
}

#[test]
fn the_largest_schedule_does_not_wrap() {
    // 10^12 at 10,000 basis points in 1,200 installments of 1,666,666,666
    let earlier = 1199 * 1_666_666_666;
    for (edition, last) in [(4, 1_666_666_666_u64), (5, 2_000_000_000_000 - earlier)] {
        let journal = repaid(edition, 1_000_000_000_000, 10_000, 1200, earlier);
        assert_eq!(due(&journal, u64::MAX), format!("0 1200 {last}\n"));
        let journal = repaid(edition, 1_000_000_000_000, 10_000, 1200, 4_000_000_000_000_000);
        assert_eq!(due(&journal, u64::MAX), "0 0 0\n");
    }
}
