//! Snapshots written by hand.

use side::{Account, Book, Invoice, Offer, Round, Schedule, Totals};

use super::{examine, read, write, write_within, Refusal};
use crate::edition::fresh;

/// Settings and totals of a fresh book of edition 3, without the edition.
#[rustfmt::skip]
const FRESH: [u8; 110] = [
    0x11, 0, 8, 0, 0, 0, 0, 0, 0x03, 0xF4, 0x80, // a window of 259,200 seconds
    0x0D, 0, 8, 0, 0, 0, 0, 0, 0, 0, 1,
    0x0E, 0, 8, 0, 0, 0, 0, 0, 0, 0, 1,
    0x60, 0, 8, 0, 0, 0, 0, 0, 0, 0, 0,
    0x61, 0, 8, 0, 0, 0, 0, 0, 0, 0, 0,
    0x62, 0, 8, 0, 0, 0, 0, 0, 0, 0, 0,
    0x63, 0, 8, 0, 0, 0, 0, 0, 0, 0, 0,
    0x64, 0, 8, 0, 0, 0, 0, 0, 0, 0, 0,
    0x65, 0, 8, 0, 0, 0, 0, 0, 0, 0, 0,
    0x66, 0, 8, 0, 0, 0, 0, 0, 0, 0, 0,
];

/// Three tables without a row.
#[rustfmt::skip]
const NO_ROWS: [u8; 33] = [
    0x70, 0, 8, 0, 0, 0, 0, 0, 0, 0, 0,
    0x80, 0, 8, 0, 0, 0, 0, 0, 0, 0, 0,
    0x90, 0, 8, 0, 0, 0, 0, 0, 0, 0, 0,
];

/// The book of `sample` without its edition: every number is another one, but for lengths and codes.
#[rustfmt::skip]
const SAMPLE: [u8; 517] = [
    0x11, 0, 8, 0, 0, 0, 0, 0, 0, 0x0E, 0x10, // a window of 3,600 seconds
    0x0D, 0, 8, 0, 0, 0, 0, 0x80, 0, 0, 1,
    0x0E, 0, 8, 0, 0, 0, 0, 0, 0, 0, 2,
    0x60, 0, 8, 0, 0, 0, 0, 0, 0, 0, 1,
    0x61, 0, 8, 0, 0, 0, 0, 0, 0, 0, 1,
    0x62, 0, 8, 0xFF, 0xFF, 0xFF, 0xFF, 0xFF, 0xFF, 0xFF, 0xFE,
    0x63, 0, 8, 0, 0, 0, 0, 0, 0x0F, 0x42, 0x40, // 1,000,000
    0x64, 0, 8, 0, 0x0E, 0x35, 0xFA, 0x93, 0x1A, 0, 0, // 4×10^15
    0x65, 0, 8, 0, 0, 0, 0, 0, 0, 0, 61,
    0x66, 0, 8, 0, 0, 0, 0, 0, 0, 0, 62,
    0x70, 0, 8, 0, 0, 0, 0, 0, 0, 0, 1,
    0x03, 0, 8, 0, 0, 0, 0, 0, 0, 0, 7, // account 7
    0x71, 0, 8, 0, 0, 0, 0, 0, 0, 0, 11,
    0x72, 0, 8, 0, 0, 0, 0, 0, 0, 0, 12,
    0x73, 0, 8, 0, 0, 0, 0, 0, 0, 0, 13,
    0x74, 0, 8, 0, 0, 0, 0, 0, 0, 0, 14,
    0x75, 0, 8, 0, 0, 0, 0, 0, 0, 0, 15,
    0x76, 0, 8, 0, 0, 0, 0, 0, 0, 0, 16,
    0x77, 0, 8, 0, 0, 0, 0, 0, 0, 0, 1,
    0x80, 0, 8, 0, 0, 0, 0, 0, 0, 0, 1,
    0x03, 0, 8, 0, 0, 0, 0, 0, 0, 0, 8, // invoice 8
    0x81, 0, 8, 0, 0, 0, 0, 0, 0, 0, 21,
    0x05, 0, 8, 0, 0, 0, 0, 0, 0, 0, 22,
    0x82, 0, 8, 0, 0, 0, 0, 0, 0, 0, 2,
    0x90, 0, 8, 0, 0, 0, 0, 0, 0, 0, 1,
    0x03, 0, 8, 0, 0, 0, 0, 0, 0, 0, 9, // offer 9
    0x04, 0, 8, 0, 0, 0, 0, 0, 0, 0, 31,
    0x91, 0, 8, 0, 0, 0, 0, 0, 0, 0, 32,
    0x05, 0, 8, 0, 0, 0, 0, 0, 0, 0, 33,
    0x06, 0, 8, 0, 0, 0, 0, 0, 0, 0, 34,
    0x07, 0, 8, 0, 0, 0, 0, 0, 1, 0x51, 0x80, // 86,400 seconds
    0x08, 0, 8, 0, 0, 0, 0, 0, 0, 0, 35,
    0x92, 0, 8, 0, 0, 0, 0, 0, 0, 0, 5,
    0x93, 0, 8, 0, 0, 0, 0, 0, 0, 0, 36,
    0x94, 0, 8, 0, 0, 0, 0, 0, 0, 0, 37,
    0x95, 0, 8, 0xFF, 0xFF, 0xFF, 0xFF, 0xFF, 0xFF, 0xFF, 0xFF,
    0x96, 0, 8, 0, 0, 0, 0, 0, 0, 0, 4,
    0x97, 0, 8, 0, 0, 0, 0, 0, 0, 0, 1,
    0x98, 0, 8, 0, 0, 0, 0, 0, 0, 0, 1, // its round
    0x05, 0, 8, 0, 0, 0, 0, 0, 0, 0, 41,
    0x06, 0, 8, 0, 0, 0, 0, 0, 0, 0, 42,
    0x07, 0, 8, 0, 0, 0, 0, 0, 1, 0x51, 0x81,
    0x01, 0, 8, 0, 0, 0, 0, 0, 0, 0, 43,
    0x0A, 0, 8, 0, 0, 0, 0, 0, 0, 0, 51, // its schedule
    0x0B, 0, 8, 0, 0, 0, 0, 0, 0, 0, 3,
    0x99, 0, 8, 0, 0, 0, 0, 0, 0, 0, 52,
    0x0C, 0, 8, 0, 0, 0, 0, 0, 0, 0, 53,
];

/// What follows them in edition 5: the terms that the schedule keeps, and its kind.
#[rustfmt::skip]
const KEPT: [u8; 33] = [
    0x9A, 0, 8, 0, 0, 0, 0, 0, 0, 0x0A, 0x5A, // 2,650 in 51 installments: 51 and 1 of interest on 2,650
    0x9B, 0, 8, 0, 0, 0, 0, 0, 0, 0, 200,
    0x14, 0, 8, 0, 0, 0, 0, 0, 0, 0, 1,
];

fn sample() -> Book {
    let totals =
        Totals { offers: 1_000_000, financed: 4_000_000_000_000_000, repaid: 61, fees: 62 };
    let account = Account {
        id: 7,
        balance: 11,
        allowance: 12,
        offered: 13,
        accepted: 14,
        pending: 15,
        repaid: 16,
        blacklisted: 1,
    };
    let round = Round { party: 1, amount: 41, rate: 42, duration: 86_401, time: 43 };
    let (count, code, installment, first) = (51, 3, 52, 53);
    let schedule = Schedule { count, code, installment, first, ..Schedule::default() };
    let offer = Offer {
        id: 9,
        invoice: 31,
        lender: 32,
        amount: 33,
        rate: 34,
        duration: 86_400,
        expires: 35,
        status: 5,
        funded: 36,
        repaid: 37,
        outcome: 4,
        deadline: u64::MAX,
        rounds: vec![round],
        schedule: Some(schedule),
    };
    Book {
        edition: 3,
        paused: true,
        window: 3_600,
        seats: 0x8000_0001,
        threshold: 2,
        repayment: Some(u64::MAX - 1),
        idle: 0,
        totals,
        accounts: vec![account],
        invoices: vec![Invoice { id: 8, originator: 21, amount: 22, status: 2 }],
        offers: vec![offer],
    }
}

/// The sample in an edition, with the terms and the kind that a schedule has there.
fn sample_of(edition: u64) -> Book {
    let mut book = Book { edition, ..sample() };
    if edition >= 5 {
        let schedule = book.offers[0].schedule.as_mut().unwrap();
        (schedule.amount, schedule.rate, schedule.kind) = (2_650, 200, 1);
    }
    book
}

/// The sample's bytes in edition 5 without the edition, with other numbers in some fields.
fn kept_with(numbers: &[(usize, u64)]) -> Vec<u8> {
    let mut bytes = [SAMPLE.as_slice(), &KEPT].concat();
    for (field, number) in numbers {
        bytes[11 * field + 3..11 * field + 11].copy_from_slice(&number.to_be_bytes());
    }
    bytes
}

fn empty() -> Vec<u8> {
    [FRESH.as_slice(), &NO_ROWS].concat()
}

/// These bytes behind the field of an edition.
fn of_edition(edition: u64, bytes: &[u8]) -> Vec<u8> {
    [[0x10, 0, 8].as_slice(), &edition.to_be_bytes(), bytes].concat()
}

/// The sample's book with so many rounds on its offer.
fn with_rounds(edition: u64, rounds: usize) -> Book {
    let mut book = sample_of(edition);
    book.offers[0].rounds = vec![book.offers[0].rounds[0]; rounds];
    book
}

/// The sample without its edition, with other numbers in some fields.
fn with(numbers: &[(usize, u64)]) -> Vec<u8> {
    let mut bytes = SAMPLE.to_vec();
    for (field, number) in numbers {
        bytes[11 * field + 3..11 * field + 11].copy_from_slice(&number.to_be_bytes());
    }
    bytes
}

const UNSOUND: (u64, u64) = (15, 0);

#[test]
fn a_fresh_book_is_written_and_read() {
    let bytes = of_edition(3, &empty());
    assert_eq!(bytes[..14], [0x10, 0, 8, 0, 0, 0, 0, 0, 0, 0, 3, 0x11, 0, 8]);
    assert_eq!(write(&fresh(3)), Ok(bytes.clone()));
    assert_eq!(read(&bytes), Ok(fresh(3)));
}

#[test]
fn every_column_has_its_field() {
    let bytes = of_edition(3, &SAMPLE);
    assert_eq!(write(&sample()), Ok(bytes.clone()));
    assert_eq!(read(&bytes), Ok(sample()));
    let bytes = of_edition(5, &kept_with(&[]));
    assert_eq!(write(&sample_of(5)), Ok(bytes.clone()));
    assert_eq!(read(&bytes), Ok(sample_of(5)));
}

#[test]
fn the_books_of_all_editions_are_read_back() {
    for edition in 1..=5 {
        for book in [fresh(edition), sample_of(edition), with_rounds(edition, 12)] {
            let bytes = write(&book).unwrap();
            assert_eq!(bytes[..11], of_edition(edition, &[]));
            assert_eq!(read(&bytes), Ok(book));
        }
    }
}

/// Bytes without an edition are from before there was a field for it.
#[test]
fn bytes_without_an_edition_are_of_edition_3() {
    assert_eq!(read(&empty()), Ok(fresh(3)));
    assert_eq!(read(&SAMPLE), Ok(sample()));
    for edition in 1..=4 {
        let bytes = write(&with_rounds(edition, 12)).unwrap();
        assert_eq!(read(&bytes[11..]), Ok(with_rounds(3, 12)));
    }
    assert_eq!(examine(&write(&with_rounds(4, 13)).unwrap()[11..]), Err(Refusal::TooMany));
    assert_eq!(examine(&write(&with_rounds(5, 13)).unwrap()[11..]), Err(Refusal::TooMany));
    assert_eq!(read(&write(&fresh(5)).unwrap()[11..]), Ok(fresh(3)));
}

/// The terms of a schedule and its kind have fields in edition 5 and nowhere else.
#[test]
fn kept_terms_are_of_edition_5() {
    let kept = kept_with(&[]);
    assert_eq!(read(&kept), Err((13, 517)));
    for edition in 1..=4 {
        assert_eq!(read(&of_edition(edition, &kept)), Err((13, 528)), "{edition}");
        assert_eq!(write(&Book { edition, ..sample_of(5) }), Err(15), "{edition}");
    }
    assert_eq!(write(&Book { edition: 5, ..sample() }), Err(15));
    for length in 0..kept.len() {
        let wrong = (length / 11 * 11 + 11) as u64;
        assert_eq!(read(&of_edition(5, &kept[..length])), Err((13, wrong)), "{length}");
    }
    for field in 0..50 {
        let mut bytes = kept.clone();
        bytes[11 * field] ^= 0x40;
        assert_eq!(read(&of_edition(5, &bytes)), Err((13, 11 * field as u64 + 11)), "{field}");
    }
    assert_eq!(read(&of_edition(5, &[kept.as_slice(), &[0x9C]].concat())), Err((13, 561)));
    let swapped = [&kept[..517], &kept[539..], &kept[517..539]].concat();
    assert_eq!(read(&of_edition(5, &swapped)), Err((13, 528)));
    assert_eq!(read(&of_edition(5, &kept[..539])), Err((13, 550)));
}

/// Field 47 is the kept amount and 48 the kept rate; 45 is the installment that follows from them. A flat
/// schedule's interest is on 51, a falling one's on all of the amount: that of 52 has other rates.
#[test]
fn kept_terms_are_held_to_the_installment() {
    let read_with = |numbers: &[(usize, u64)]| read(&of_edition(5, &kept_with(numbers)));
    let minus = u64::MAX;
    let both = [(47, 2_601), (47, 2_651), (48, 197), (48, 384)];
    for (kind, good) in both.map(|good| [(0, good), (1, good)]).concat() {
        assert!(read_with(&[good, (49, kind)]).is_ok(), "{kind} {good:?}");
    }
    for (kind, other) in [(0, (48, 392)), (1, (48, 193))] {
        assert!(read_with(&[other, (49, kind)]).is_ok(), "{kind} {other:?}");
        assert_eq!(read_with(&[other, (49, 1 - kind)]), Err(UNSOUND), "{kind} {other:?}");
    }
    let wrong = [(47, 0), (47, 2_600), (47, 2_652), (47, minus), (48, 0), (48, 192), (48, 393)];
    for wrong in wrong.into_iter().chain([(45, 51), (45, 53), (43, 50), (48, (1 << 32) + 200)]) {
        for kind in [0, 1] {
            assert_eq!(read_with(&[wrong, (49, kind)]), Err(UNSOUND), "{kind} {wrong:?}");
        }
    }
    assert!(read_with(&[(48, 10_000), (45, 102)]).is_ok());
    assert_eq!(read_with(&[(48, 10_001), (45, 102)]), Err(UNSOUND));
    let most = [(43, 1), (47, 1_000_000_000_000), (45, 1_000_100_000_000), (48, 1)];
    assert!(read_with(&most).is_ok());
    let more = [(43, 1), (47, 1_000_000_000_001), (45, 1_000_100_000_001), (48, 1)];
    assert_eq!(read_with(&more), Err(UNSOUND));
}

/// Field 49 is the kind, of 64 bits: any number is well-formed.
#[test]
fn a_kind_is_a_listed_one() {
    let read_with = |numbers: &[(usize, u64)]| read(&of_edition(5, &kept_with(numbers)));
    for kind in [0, 1] {
        let book = read_with(&[(49, kind)]).unwrap();
        assert_eq!(book.offers[0].schedule.map(|row| row.kind), Some(kind));
    }
    for kind in [2, 256, 1 << 32, (1 << 32) + 1, 1 << 63, u64::MAX] {
        assert_eq!(read_with(&[(49, kind)]), Err(UNSOUND), "{kind}");
        let mut book = sample_of(5);
        book.offers[0].schedule.as_mut().unwrap().kind = kind;
        assert_eq!(write(&book), Err(15), "{kind}");
    }
    for installment in [0, 1, 2] {
        let short = [(47, 50), (45, installment)];
        assert_eq!(read_with(&short), Err(UNSOUND), "{installment}");
    }
    assert!(read_with(&[(47, 51), (45, 1)]).is_ok());
}

#[test]
fn an_edition_that_there_is_not_is_wrong_at_once() {
    let past_32_bits = (1 << 32) + 1;
    for edition in [0, 6, 257, past_32_bits, past_32_bits + 2, 1 << 63, u64::MAX] {
        for rest in [SAMPLE.as_slice(), &[], &[0; 20]] {
            assert_eq!(read(&of_edition(edition, rest)), Err((13, 0)), "{edition}");
        }
    }
}

#[test]
fn the_edition_has_a_field_as_any_other() {
    let bytes = of_edition(3, &SAMPLE);
    for length in 0..11 {
        assert_eq!(read(&bytes[..length]), Err((13, 0)), "{length}");
    }
    for (place, byte) in [(0, 0x0F), (1, 1), (2, 7), (2, 9)] {
        let mut bytes = bytes.clone();
        bytes[place] = byte;
        assert_eq!(read(&bytes), Err((13, 0)), "{place} {byte}");
    }
    let window_first = [&[0x11], &bytes[1..]].concat();
    assert_eq!(read(&window_first), Err((13, 11)));
    let journals = [0x10, 0, 2, 0, 3];
    assert_eq!(read(&[journals.as_slice(), &SAMPLE].concat()), Err((13, 0)));
    assert_eq!(read(&of_edition(3, &[])), Err((13, 11)));
    assert_eq!(read(&of_edition(3, &bytes)), Err((13, 11)));
}

/// The limit is the edition's, and a round past it is seen before the malformed bytes after it.
#[test]
fn the_number_of_rounds_is_held_to_the_edition() {
    for (edition, most) in [(1, 12), (2, 12), (3, 12), (4, 16), (5, 16)] {
        let book = with_rounds(edition, most);
        let bytes = write(&book).unwrap();
        assert_eq!(read(&bytes), Ok(book));
        assert_eq!(write(&with_rounds(edition, most + 1)), Err(15));
        for past in [most + 1, 17, 255, 1 << 32] {
            let count = with(&[(37, past as u64)]);
            for rest in [count.as_slice(), &count[..418], &[&count[..418], &[0; 11]].concat()] {
                let bytes = of_edition(edition, rest);
                assert_eq!(examine(&bytes), Err(Refusal::TooMany), "{edition} {past}");
            }
        }
    }
}

/// 64 rows in each table, all rounds on each offer: (11 + 3 + 64 × (8 + 4 + 17 + rounds × 5)) × 11, and
/// in edition 5 three fields more for each offer.
#[test]
fn a_full_book_is_the_longest() {
    for (edition, rounds, longest) in [(3, 12, 62_810), (4, 16, 76_890), (5, 16, 79_002)] {
        let book = with_rounds(edition, rounds);
        let (account, invoice, offer) = (book.accounts[0], book.invoices[0], &book.offers[0]);
        let full = Book {
            accounts: (0..64).map(|id| Account { id, ..account }).collect(),
            invoices: (0..64).map(|id| Invoice { id, ..invoice }).collect(),
            offers: (0..64).map(|id| Offer { id, ..offer.clone() }).collect(),
            ..book.clone()
        };
        let bytes = write(&full).unwrap();
        assert_eq!(bytes.len(), longest);
        assert_eq!(read(&bytes), Ok(full));
    }
}

#[test]
fn an_unsound_book_comes_before_a_short_buffer() {
    let unsound = Book { window: 3_599, ..sample() };
    assert_eq!(write_within(&unsound, 0), Err(15));
    assert_eq!(write_within(&unsound, 81_920), Err(15));
    assert_eq!(write_within(&sample(), 527), Err(14));
    assert_eq!(write_within(&sample(), 528), Ok(of_edition(3, &SAMPLE)));
}

#[test]
fn another_tag_is_the_first_wrong_field() {
    for field in 0..47 {
        let mut bytes = SAMPLE;
        bytes[11 * field] ^= 0x40;
        assert_eq!(read(&bytes), Err((13, 11 * field as u64)));
        assert_eq!(read(&of_edition(3, &bytes)), Err((13, 11 * field as u64 + 11)));
    }
}

#[test]
fn another_length_is_the_first_wrong_field() {
    for (place, byte) in [(1, 1), (2, 7), (2, 9), (2, 0)] {
        let mut bytes = SAMPLE;
        bytes[22 + place] = byte;
        assert_eq!(read(&bytes), Err((13, 22)));
        assert_eq!(read(&of_edition(3, &bytes)), Err((13, 33)));
    }
}

#[test]
fn a_cut_field_is_wrong_at_its_tag() {
    let bytes = of_edition(3, &SAMPLE);
    for length in 0..517 {
        assert_eq!(read(&SAMPLE[..length]), Err((13, (length / 11 * 11) as u64)), "{length}");
    }
    for length in 0..528 {
        assert_eq!(read(&bytes[..length]), Err((13, (length / 11 * 11) as u64)), "{length}");
    }
}

#[test]
fn bytes_after_the_last_field_are_wrong_where_they_begin() {
    for after in [[0x0C].as_slice(), &[0; 11], &FRESH] {
        assert_eq!(read(&[SAMPLE.as_slice(), after].concat()), Err((13, 517)));
        assert_eq!(read(&of_edition(3, &[SAMPLE.as_slice(), after].concat())), Err((13, 528)));
    }
    assert_eq!(read(&[empty().as_slice(), &[0x11]].concat()), Err((13, 143)));
}

/// Accounts, invoices, offers and the offer's rounds in edition 3; nothing follows the count.
#[test]
fn a_count_past_its_limit_is_unsound_at_once() {
    for (field, most) in [(10, 64), (19, 64), (24, 64), (37, 12)] {
        for past in [most + 1, 1 << 32, u64::MAX] {
            let bytes = with(&[(field, past)]);
            assert_eq!(examine(&bytes[..11 * field + 11]), Err(Refusal::TooMany));
            assert_eq!(read(&bytes), Err(UNSOUND));
        }
        let bytes = with(&[(field, most)]);
        assert!(matches!(read(&bytes), Err((13, _))));
    }
}

#[test]
fn a_malformed_field_comes_before_an_unsound_number() {
    let bytes = with(&[(0, 0), (12, u64::MAX)]);
    assert_eq!(examine(&bytes), Err(Refusal::Unsound));
    assert_eq!(read(&bytes[..516]), Err((13, 506)));
    assert_eq!(read(&[bytes.as_slice(), &[0]].concat()), Err((13, 517)));
    let many = with(&[(0, 0), (37, 13)]);
    assert_eq!(examine(&many), Err(Refusal::TooMany));
}

/// Seats, threshold, both marks, offers made; an account's counts and mark; codes, rates and counts.
#[test]
fn a_number_that_does_not_fit_its_type_is_unsound() {
    for field in [1, 2, 6, 16, 17, 23, 29, 32, 36, 38, 40, 43, 44] {
        let mut bytes = SAMPLE;
        bytes[11 * field + 6] = 1;
        assert_eq!(examine(&bytes), Err(Refusal::Unsound), "{field}");
    }
    for field in [3, 4, 18] {
        assert_eq!(examine(&with(&[(field, 2)])), Err(Refusal::Unsound), "{field}");
        assert_eq!(examine(&with(&[(field, 1 << 32)])), Err(Refusal::Unsound), "{field}");
    }
}

#[test]
fn a_number_out_of_its_range_is_unsound() {
    let minus_one = u64::MAX;
    let wrong = [
        (0, 3_599),
        (0, 2_592_001),
        (2, 0),
        (2, 3),
        (6, 1_000_001),
        (7, 4_000_000_000_000_001),
        (9, minus_one),
        (12, minus_one),
        (15, 4_000_000_000_000_001),
        (17, 1_000_001),
        (22, 0),
        (23, 3),
        (28, 1_000_000_000_001),
        (29, 10_001),
        (30, 86_399),
        (32, 6),
        (34, minus_one),
        (36, 1),
        (36, 5),
        (38, 2),
        (39, 0),
        (41, 31_536_001),
        (43, 1_201),
        (44, 4),
        (45, 0),
        (45, 2_000_000_000_001),
    ];
    for (field, number) in wrong {
        assert_eq!(read(&with(&[(field, number)])), Err(UNSOUND), "{field} {number}");
    }
}

/// Offers 9 and then another: only a greater id may follow.
#[test]
fn ids_ascend() {
    for (next, good) in [(8, false), (9, false), (10, true)] {
        let mut second = SAMPLE[11 * 25..].to_vec();
        second[3..11].copy_from_slice(&u64::to_be_bytes(next));
        let bytes = [with(&[(24, 2)]), second].concat();
        assert_eq!(read(&bytes).is_ok(), good, "{next}");
        assert!(good || read(&bytes) == Err(UNSOUND));
    }
}

#[test]
fn an_absent_schedule_is_all_zeros() {
    let none = with(&[(43, 0), (44, 0), (45, 0), (46, 0)]);
    assert_eq!(read(&none).unwrap().offers[0].schedule, None);
    for field in [44, 45, 46] {
        let mut bytes = none.clone();
        bytes[11 * field + 10] = 1;
        assert_eq!(examine(&bytes), Err(Refusal::Unsound), "{field}");
    }
    let zeros = [43, 44, 45, 46, 47, 48, 49].map(|field| (field, 0));
    let none = of_edition(5, &kept_with(&zeros));
    assert_eq!(read(&none).unwrap().offers[0].schedule, None);
    for field in 44..50 {
        let mut bytes = none.clone();
        bytes[11 * field + 21] = 1;
        assert_eq!(examine(&bytes), Err(Refusal::Unsound), "{field}");
    }
}

/// The id is free while no account is set, and it is kept.
#[test]
fn an_idle_repayment_account_is_kept() {
    let bytes = with(&[(4, 0), (5, 7)]);
    let book = Book { repayment: None, idle: 7, ..sample() };
    assert_eq!(read(&bytes), Ok(book.clone()));
    assert_eq!(write(&book), Ok(of_edition(3, &bytes)));
}
