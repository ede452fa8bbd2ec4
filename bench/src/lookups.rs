//! One lookup repeated, and lookups by the thousand: of the proved book, and of a map of the standard library.

use std::cell::RefCell;
use std::collections::BTreeMap;
use std::hint::black_box;
use std::time::Instant;

use harness::chance::Chance;
use solgaverna::{Journal, Offer, Offers};

extern "C" {
    fn timing_replay(journal: *const u8, len: usize) -> u64;
    fn timing_lender(journal: *const u8, len: usize, account: u64, times: u64) -> u64;
    fn timing_offer(journal: *const u8, len: usize, id: u64, times: u64) -> u64;
    fn timing_answers(
        journal: *const u8,
        len: usize,
        questions: *const u64,
        words: usize,
        out: *mut u64,
        room: usize,
        times: u64,
    ) -> u64;
    fn timing_sound(journal: *const u8, len: usize, times: u64) -> u64;
}

/// How many lookups are timed: single ones, and ones by the session or of a map.
const SINGLE: u64 = 20_000;
const MANY: u64 = 1_000_000;
/// How many questions are asked in one call, the words of a question, and those of its answer.
const SESSION: usize = 1_000;
const QUESTION: usize = 3;
const ANSWER: usize = 12;
/// Codes of questions: an offer, a lender's figures, an installment due, the last one.
const OFFER: u64 = 1;
const LENDER: u64 = 3;
const DUE: u64 = 7;
const LAST: u64 = 13;

pub fn replay(journal: &[u8]) -> u64 {
    unsafe { timing_replay(journal.as_ptr(), journal.len()) }
}

pub fn measure(runs: usize, bytes: &[u8]) {
    let journal = Journal::from(bytes.to_vec());
    let offers = journal.offers(Offers::All).expect("a whole journal");
    let Some(offer) = offers.last() else { return println!("the journal has no offer") };
    let (from, len) = (bytes.as_ptr(), bytes.len());
    println!("\n{} offers; nanoseconds for one lookup, lowest, middle and highest", offers.len());
    show(runs, "library, the soundness test", SINGLE, &|times| unsafe { timing_sound(from, len, times) });
    show(runs, "library, one offer", SINGLE, &|times| unsafe { timing_offer(from, len, offer.id, times) });
    show(runs, "library, a lender's figures", SINGLE, &|times| unsafe {
        timing_lender(from, len, offer.lender, times)
    });
    let mut chance = Chance::new(0);
    let asked: Vec<_> = (0..SESSION).map(|_| chance.pick(&offers)).collect();
    sessions(runs, bytes, &asked);
    dues(runs);
    maps(runs, &journal, &asked);
}

/// Questions by the thousand, of offers and lenders that are there, in no order.
fn sessions(runs: usize, bytes: &[u8], asked: &[Offer]) {
    let of = |what, questions: Vec<[u64; QUESTION]>| session(runs, bytes, what, MANY, questions.as_flattened());
    of("session, offers", asked.iter().map(|offer| [OFFER, offer.id, 0]).collect());
    of("session, lenders' figures", asked.iter().map(|offer| [LENDER, offer.lender, 0]).collect());
    let turns = asked.iter().zip((OFFER..=LAST).cycle());
    of("session, each code in turn", turns.map(|(offer, code)| [code, offer.id, offer.expires]).collect());
}

/// What is due of the longest schedule of each kind, where all but its last installment are paid.
fn dues(runs: usize) {
    for (what, kind) in [("session, dues, flat", 0), ("session, dues, falling", 1)] {
        let mut journal = Journal::of_edition(5).expect("an edition that there is");
        let text = format!(
            "open-account 100 1\nopen-account 100 2\nregister 100 2 10 1000000000000\n\
             create 100 1 20 10 1000000000000 10000 86400 0\nschedule 100 1 20 1200 1 1000000 {kind}\n\
             repayment-account 100 1 1\nrepaid 100 1 20 {}\n",
            [1_999_000_000_000_u64, 1_500_000_000_000][kind]
        );
        journal.write(&text).expect("lines of commands");
        let due = journal.ask(&format!("due 20 {}\n", u64::MAX)).expect("a sound book");
        assert!(due.starts_with("0 1200 "), "the last is due: {due}");
        session(runs, journal.bytes(), what, SINGLE, [DUE, 20, u64::MAX].repeat(SESSION).as_slice());
    }
}

fn session(runs: usize, bytes: &[u8], what: &str, many: u64, questions: &[u64]) {
    let answers = RefCell::new(vec![0; SESSION * ANSWER]);
    show(runs, what, many, &|times| {
        let (from, len) = (bytes.as_ptr(), bytes.len());
        let (words, count) = (questions.as_ptr(), questions.len());
        let mut out = answers.borrow_mut();
        unsafe { timing_answers(from, len, words, count, out.as_mut_ptr(), out.len(), times / SESSION as u64) }
    });
    assert!(answers.borrow().chunks_exact(ANSWER).all(|answer| answer[0] == 0), "every question is answered");
}

/// The same questions of maps, which hand out one number.
fn maps(runs: usize, journal: &Journal, asked: &[Offer]) {
    let rows: BTreeMap<_, _> = asked.iter().map(|offer| (offer.id, *offer)).collect();
    show(runs, "map, offers", MANY, &|times| {
        let amount = |offer: &Offer| rows.get(&black_box(offer.id)).map_or(4, |offer| offer.amount as u64);
        asked.iter().cycle().take(times as usize).fold(0, |mixed, offer| mixed ^ amount(offer))
    });
    let figures = |lender| journal.lender(lender).expect("a whole journal");
    let lenders: BTreeMap<_, _> = asked.iter().map(|offer| (offer.lender, figures(offer.lender))).collect();
    show(runs, "map, lenders' figures", MANY, &|times| {
        let offered = |offer: &Offer| lenders.get(&black_box(offer.lender)).map_or(0, |lender| lender.offered);
        asked.iter().cycle().take(times as usize).fold(0, |mixed, offer| mixed ^ offered(offer))
    });
}

fn show(runs: usize, what: &str, many: u64, work: &dyn Fn(u64) -> u64) {
    let times = lowest_first(runs, many, work);
    let each = |at: usize| times[at] * 1e9;
    println!("{what:32} {:8.1} {:8.1} {:8.1}", each(0), each(runs / 2), each(runs - 1));
}

/// Seconds for one: the time of many less the time of none, which is what stands before them.
pub fn lowest_first(runs: usize, many: u64, work: &dyn Fn(u64) -> u64) -> Vec<f64> {
    let mut times: Vec<_> = (0..runs).map(|_| (seconds(work, many) - seconds(work, 0)) / many as f64).collect();
    times.sort_by(f64::total_cmp);
    times
}

fn seconds(work: &dyn Fn(u64) -> u64, times: u64) -> f64 {
    let began = Instant::now();
    black_box(work(black_box(times)));
    began.elapsed().as_secs_f64()
}
