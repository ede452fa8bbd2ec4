//! The journal and the listing, read from document 01 a second time: no table of this project's
//! journal crate is used, only its commands.

use journal::Command;
use side::{Book, Side};

use crate::schedule::FLAT;
use crate::{edition, Plain};

/// A field: a one-byte tag, a two-byte big-endian length and its bytes.
struct Field<'a> {
    tag: u8,
    bytes: &'a [u8],
    size: usize,
}

fn field(bytes: &[u8]) -> Option<Field<'_>> {
    let tag = *bytes.first()?;
    let length = 256 * usize::from(*bytes.get(1)?) + usize::from(*bytes.get(2)?);
    Some(Field { tag, bytes: bytes.get(3..3 + length)?, size: 3 + length })
}

/// The fields inside a command, as tags and numbers in the order in which they stand.
fn inside(mut bytes: &[u8]) -> Option<Vec<(u8, u64)>> {
    let mut fields = Vec::new();
    while !bytes.is_empty() {
        let field = field(bytes)?;
        if field.bytes.len() != 8 {
            return None;
        }
        let number = field.bytes.iter().fold(0, |number, byte| number << 8 | u64::from(*byte));
        if [6, 9, 0x0A, 0x0B, 0x0E].contains(&field.tag) && number >= 1 << 32 {
            return None;
        }
        fields.push((field.tag, number));
        bytes = &bytes[field.size..];
    }
    Some(fields)
}

/// The numbers of the fields, if their tags are exactly these; 01 is in all commands, 02 in all
/// below 51.
fn exactly<const N: usize>(tag: u8, fields: &[(u8, u64)], rest: [u8; N]) -> Option<Exact<N>> {
    let before: &[u8] = if tag < 0x51 { &[1, 2] } else { &[1] };
    let wanted = before.iter().chain(&rest);
    if !fields.iter().map(|(tag, _)| tag).eq(wanted) {
        return None;
    }
    let number = |index: usize| fields[index].1;
    let caller = if tag < 0x51 { number(1) } else { 0 };
    let rest = std::array::from_fn(|index| number(before.len() + index));
    Some(Exact { now: number(0), caller, rest })
}

struct Exact<const N: usize> {
    now: u64,
    caller: u64,
    rest: [u64; N],
}

macro_rules! fields {
    ($tag:expr, $fields:expr, [$($rest:expr),*] => |$now:ident, $caller:ident, [$($name:ident),*]| $command:expr) => {{
        let Exact { now: $now, caller: $caller, rest: [$($name),*] } =
            exactly($tag, $fields, [$($rest),*])?;
        let _ = $caller;
        $command
    }};
}

fn command(edition: u64, record: &Field) -> Option<Command> {
    let (tag, f) = (record.tag, &inside(record.bytes)?);
    Some(match tag {
        0x21 => fields!(tag, f, [] => |now, caller, []| Command::OpenAccount { now, caller }),
        0x22 => fields!(tag, f, [5] => |now, caller, [amount]| {
            Command::Deposit { now, caller, amount: amount as i64 }
        }),
        0x23 => fields!(tag, f, [5] => |now, caller, [amount]| {
            Command::Payout { now, caller, amount: amount as i64 }
        }),
        0x24 => fields!(tag, f, [5] => |now, caller, [amount]| {
            Command::Approve { now, caller, amount: amount as i64 }
        }),
        0x25 => fields!(tag, f, [3, 5] => |now, caller, [id, amount]| {
            Command::RegisterInvoice { now, caller, id, amount: amount as i64 }
        }),
        0x26 => {
            fields!(tag, f, [3] => |now, caller, [id]| Command::CancelInvoice { now, caller, id })
        }
        0x31 => fields!(tag, f, [3, 4, 5, 6, 7, 8] =>
        |now, caller, [id, invoice, amount, rate, duration, expires]| {
            let (amount, rate) = (amount as i64, rate as u32);
            Command::CreateOffer { now, caller, id, invoice, amount, rate, duration, expires }
        }),
        0x32 => {
            fields!(tag, f, [3] => |now, caller, [id]| Command::WithdrawOffer { now, caller, id })
        }
        0x33 => {
            fields!(tag, f, [3] => |now, caller, [id]| Command::AcceptOffer { now, caller, id })
        }
        0x34 => {
            fields!(tag, f, [3] => |now, caller, [id]| Command::RejectOffer { now, caller, id })
        }
        0x35 => fields!(tag, f, [3, 5, 6, 7, 9] =>
        |now, caller, [id, amount, rate, duration, round]| {
            let (amount, rate, round) = (amount as i64, rate as u32, round as u32);
            Command::AmendOffer { now, caller, id, amount, rate, duration, round }
        }),
        0x36 => fields!(tag, f, [3, 5, 6, 7, 9] =>
        |now, caller, [id, amount, rate, duration, round]| {
            let (amount, rate, round) = (amount as i64, rate as u32, round as u32);
            Command::CounterOffer { now, caller, id, amount, rate, duration, round }
        }),
        0x37 => fields!(tag, f, [3] => |now, caller, [id]| {
            Command::CloseNegotiation { now, caller, id }
        }),
        0x38 if edition::has_kinds(edition) => fields!(tag, f, [3, 0x0A, 0x0B, 0x0C, 0x14] =>
        |now, caller, [id, count, code, first, kind]| {
            let (count, code) = (count as u32, code as u32);
            Command::ScheduleRepayment { now, caller, id, count, code, first, kind }
        }),
        0x38 => fields!(tag, f, [3, 0x0A, 0x0B, 0x0C] => |now, caller, [id, count, code, first]| {
            let (count, code, kind) = (count as u32, code as u32, FLAT);
            Command::ScheduleRepayment { now, caller, id, count, code, first, kind }
        }),
        0x41 => fields!(tag, f, [3, 0x0B] => |now, caller, [id, code]| {
            Command::UpdateStatus { now, caller, id, code: code as u32 }
        }),
        0x42 => fields!(tag, f, [3, 5] => |now, caller, [id, amount]| {
            Command::UpdateRepaid { now, caller, id, amount: amount as i64 }
        }),
        0x43 => fields!(tag, f, [3, 0x0B] => |now, caller, [id, code]| {
            Command::UpdateLenderRepaid { now, caller, id, code: code as u32 }
        }),
        0x44 => fields!(tag, f, [5, 0x0F] => |now, caller, [amount, fee]| {
            Command::UpdateTotalsRepaid { now, caller, amount: amount as i64, fee: fee as i64 }
        }),
        0x51 => fields!(tag, f, [0x0D] => |now, none, [seats]| Command::Pause { now, seats }),
        0x52 => fields!(tag, f, [0x0D] => |now, none, [seats]| Command::Unpause { now, seats }),
        0x53 => fields!(tag, f, [0x0D, 0x11] => |now, none, [seats, window]| {
            Command::SetWindow { now, seats, window }
        }),
        0x54 => fields!(tag, f, [3, 0x0D] => |now, none, [id, seats]| {
            Command::SetRepaymentAccount { now, id, seats }
        }),
        0x55 => fields!(tag, f, [3, 0x0B, 0x0D] => |now, none, [id, code, seats]| {
            Command::SetBlacklisted { now, id, code: code as u32, seats }
        }),
        0x56 => fields!(tag, f, [0x0D, 0x0E, 0x12] => |now, none, [seats, threshold, next]| {
            Command::SetSeats { now, seats, threshold: threshold as u32, next }
        }),
        _ => return None,
    })
}

/// The command of bytes that are exactly one record of an edition.
pub fn one_record(edition: u64, bytes: &[u8]) -> Option<Command> {
    let record = field(bytes)?;
    (record.size == bytes.len()).then(|| command(edition, &record))?
}

/// The edition of a journal and its records, if it starts with tag 10, length 2 and an edition.
fn opened(journal: &[u8]) -> Option<(u64, &[u8])> {
    let header = field(journal)?;
    let (0x10, [high, low]) = (header.tag, header.bytes) else { return None };
    let edition = 256 * u64::from(*high) + u64::from(*low);
    edition::is_listed(edition).then(|| (edition, &journal[header.size..]))
}

/// The replay program holds so many bytes of a journal.
const LONGEST: usize = 32_768;

/// Everything that the replay program prints for these bytes, from a fresh book of the edition that
/// they name.
pub fn listing(plain: &mut Plain, journal: &[u8]) -> String {
    let named = opened(journal).filter(|_| journal.len() <= LONGEST);
    plain.reset(named.map_or(1, |(edition, _)| edition));
    listing_from(plain, journal)
}

/// The same from the present book, which a journal of another edition leaves as it is.
pub fn listing_from(plain: &mut Plain, journal: &[u8]) -> String {
    if journal.len() > LONGEST {
        return "0 14\n".into();
    }
    let mut lines = Vec::new();
    match opened(journal) {
        Some((edition, records)) if edition == plain.book().edition => {
            lines.push(format!("edition {edition}"));
            records_of(plain, records, &mut lines);
        }
        _ => lines.push("0 13 0".to_string()),
    }
    tables_of(plain.book(), &mut lines);
    lines.iter().map(|line| format!("{line}\n")).collect()
}

fn tables_of(book: &Book, lines: &mut Vec<String>) {
    for row in &book.accounts {
        let money = [row.balance, row.allowance, row.offered, row.accepted];
        lines.push(format!("account {} {}", row.id, money.map(|sum| sum.to_string()).join(" ")));
    }
    let totals = [book.totals.financed, book.totals.repaid, book.totals.fees];
    lines.push(format!("totals {}", totals.map(|sum| sum.to_string()).join(" ")));
}

fn records_of(plain: &mut Plain, mut records: &[u8], lines: &mut Vec<String>) {
    let (mut number, mut offset) = (1, 5);
    let edition = plain.book().edition;
    while !records.is_empty() {
        let read =
            field(records).and_then(|record| Some((command(edition, &record)?, record.size)));
        let Some((command, size)) = read else {
            lines.push(format!("{number} 13 {offset}"));
            return;
        };
        lines.push(format!("{number} {}", plain.run(&command)));
        records = &records[size..];
        number += 1;
        offset += size;
    }
}

#[cfg(test)]
mod tests {
    use super::*;
    use journal::{journal, session, SESSION_LISTING};

    #[test]
    fn document_01s_session() {
        for edition in 1..=journal::LATEST {
            let text = listing(&mut Plain::default(), &journal(edition, &session()));
            assert_eq!(text, format!("edition {edition}\n{SESSION_LISTING}"));
        }
    }

    #[test]
    fn headers() {
        let mut plain = Plain::default();
        let (fresh, next) = ("0 13 0\ntotals 0 0 0\n", journal::LATEST as u8 + 1);
        for edition in [[0, 0], [0, next], [1, 1], [255, 255]] {
            let bytes = [[0x10, 0, 2].as_slice(), &edition].concat();
            assert_eq!(listing(&mut plain, &bytes), fresh);
            assert_eq!(plain.book().edition, 1);
        }
        assert_eq!(listing(&mut plain, &[]), fresh);
        assert_eq!(listing(&mut plain, &[0x10, 0, 2, 0]), fresh);
        assert_eq!(listing(&mut plain, &[0x10, 0, 3, 0, 0, 1]), fresh);
        for edition in 1..next {
            let text = listing(&mut plain, &[0x10, 0, 2, 0, edition]);
            assert_eq!(text, format!("edition {edition}\ntotals 0 0 0\n"));
            assert_eq!(plain.book().edition, u64::from(edition));
        }
        let trailing = [0x10, 0, 2, 0, 1, 0x21];
        assert_eq!(listing(&mut plain, &trailing), "edition 1\n1 13 5\ntotals 0 0 0\n");
        assert_eq!(listing(&mut plain, &[0; 32_769]), "0 14\n");
    }

    /// The session in two parts: the second goes on from the first one's book and counts from 1.
    #[test]
    fn a_journal_goes_on_from_the_present_book() {
        let mut plain = Plain::default();
        plain.reset(3);
        let (first, rest) = (session()[..7].to_vec(), session()[7..].to_vec());
        let book = "account 1 5000 5000 1000 0\naccount 2 0 0 0 0\ntotals 0 0 0\n";
        assert!(listing_from(&mut plain, &journal(3, &first)).ends_with(book));
        for bytes in [journal(2, &rest), journal(4, &rest), journal(6, &rest), vec![0x10]] {
            assert_eq!(listing_from(&mut plain, &bytes), format!("0 13 0\n{book}"));
        }
        assert_eq!(listing_from(&mut plain, &[0; 32_769]), "0 14\n");
        let tables = SESSION_LISTING.split_once("10 7\n").unwrap().1;
        let text = listing_from(&mut plain, &journal(3, &rest));
        assert_eq!(text, format!("edition 3\n1 3\n2 0\n3 7\n{tables}"));
        assert_eq!(plain.book().edition, 3);
    }
}
