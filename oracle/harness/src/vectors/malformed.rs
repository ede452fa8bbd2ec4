//! Journals with one malformed record, of each kind.

use journal::{field, header, journal, session, Command};

use super::samples::{sample, Sample};

/// The session's first six commands, then a record that is malformed in one way, then its seventh.
pub(super) fn malformed() -> Vec<Sample> {
    let session = session();
    let before = journal(1, &session[..6]);
    let mut counter = Vec::new();
    journal::write(1, &session[6], &mut counter);
    let follow = |record: &[u8]| [&before, record, &counter].concat();
    let cut = |record: &[u8]| [&before, record].concat();
    let mut samples = Vec::new();
    let mut put = |name: &str, what: &str, bytes: Vec<u8>| {
        samples.push(sample(&format!("malformed-{name}"), what, bytes));
    };
    for tag in [0x00, 0x20, 0x27, 0x30, 0x39, 0x40, 0x45, 0x50, 0x57, 0xFF] {
        let record = [&[tag], &counter[1..]].concat();
        put(&format!("tag-{tag:02x}"), "an unknown command tag", follow(&record));
    }
    put("header-again", "the header as a record", follow(&header(1)));
    put("one-byte", "one byte at the end", cut(&counter[..1]));
    put("two-bytes", "two bytes at the end", cut(&counter[..2]));
    put("three-bytes", "a tag and a length at the end", cut(&counter[..3]));
    put("cut", "the last byte is missing", cut(&counter[..counter.len() - 1]));
    put("empty", "a record without fields", follow(&[0x36, 0, 0]));
    for (name, what, inside) in wrong_insides(&session[6]) {
        let mut record = Vec::new();
        field(0x36, &inside, &mut record);
        put(name, what, follow(&record));
    }
    put("short-outer", "the outer length cuts the last field", follow(&shortened(&counter)));
    put("caller-in-admin", "a caller in an admin command", follow(&admin_with_caller()));
    for (field, record) in narrow_fields() {
        put(field, &format!("a {field} of 2^32"), follow(&record(1 << 32)));
    }
    for (field, record) in narrow_fields() {
        let what = format!("a {field} of 2^32-1 is read, and refused by its command");
        samples.push(sample(&format!("fits-{field}"), &what, follow(&record((1 << 32) - 1))));
    }
    samples.extend(kinds());
    samples
}

/// The session's first six commands, then a schedule with a kind where its edition has none or without it
/// where it has one, then the seventh.
fn kinds() -> [Sample; 2] {
    let bare = [(0x01, 100), (0x02, 1), (0x03, 20), (0x0A, 3), (0x0B, 1), (0x0C, 200)];
    let kinded = [bare.as_slice(), &[(0x14, 0)]].concat();
    let follow = |edition, fields: &[(u8, u64)]| {
        let mut bytes = journal(edition, &session()[..6]);
        bytes.extend(record_of(0x38, fields));
        journal::write(edition, &session()[6], &mut bytes);
        bytes
    };
    [
        sample("malformed-kind-missing", "edition 5 without a kind", follow(5, &bare)),
        sample("malformed-kind-early", "edition 4 with a kind", follow(4, &kinded)),
    ]
}

fn shortened(record: &[u8]) -> Vec<u8> {
    let mut record = record.to_vec();
    record[2] -= 1;
    record
}

fn admin_with_caller() -> Vec<u8> {
    record_of(0x51, &[(0x01, 100), (0x02, 1), (0x0D, 1)])
}

fn record_of(tag: u8, fields: &[(u8, u64)]) -> Vec<u8> {
    let (mut inside, mut record) = (Vec::new(), Vec::new());
    fields.iter().for_each(|(tag, number)| field(*tag, &number.to_be_bytes(), &mut inside));
    field(tag, &inside, &mut record);
    record
}

type Fields = Vec<(u8, u64)>;

fn wrong_insides(command: &Command) -> Vec<(&'static str, &'static str, Vec<u8>)> {
    let (_, numbers) = command.numbers();
    let number = |tag: u8| numbers[tag as usize];
    let tags = command.kind().fields(1).into_iter();
    let good: Vec<_> = tags.map(|tag| (tag, number(tag))).collect();
    let inside = |fields: &[(u8, u64)]| record_of(0x36, fields)[3..].to_vec();
    let with = |change: &dyn Fn(&mut Fields)| {
        let mut fields = good.clone();
        change(&mut fields);
        inside(&fields)
    };
    let narrow = |width: usize| {
        let mut bytes = inside(&good[..6]);
        let eight = number(0x09).to_be_bytes();
        field(0x09, &[&[0], eight.as_slice()].concat()[9 - width..], &mut bytes);
        bytes
    };
    vec![
        ("missing", "the last field is missing", inside(&good[..6])),
        ("missing-first", "the time is missing", inside(&good[1..])),
        ("twice", "a field stands twice", with(&|fields| fields.insert(3, fields[3]))),
        ("order", "two fields are out of order", with(&|fields| fields.swap(2, 3))),
        ("more", "one field too many", with(&|fields| fields.push((0x0A, 1)))),
        ("unlisted", "a field of another command", with(&|fields| fields[6].0 = 0x08)),
        ("unknown", "an unknown field tag", with(&|fields| fields[6].0 = 0x13)),
        ("seven", "a field of seven bytes", narrow(7)),
        ("nine", "a field of nine bytes", narrow(9)),
        ("none", "a field of no bytes", narrow(0)),
        ("trailing", "one byte after the last field", [inside(&good), vec![0]].concat()),
        ("inner-cut", "an inner length past the record's end", {
            let mut bytes = inside(&good);
            let length = bytes.len() - 9;
            bytes[length] = 9;
            bytes
        }),
    ]
}

/// A field of 32 bits, and a record that holds a number in it.
type Narrow = (&'static str, fn(u64) -> Vec<u8>);

fn narrow_fields() -> [Narrow; 5] {
    fn round(rate: u64, round: u64) -> Vec<u8> {
        let terms = [(0x05, 900), (0x06, rate), (0x07, 86_400), (0x09, round)];
        record_of(0x36, &[[(0x01, 100), (0x02, 2), (0x03, 20)].as_slice(), &terms].concat())
    }
    fn schedule(count: u64, code: u64) -> Vec<u8> {
        let fields = [(0x0A, count), (0x0B, code), (0x0C, 200)];
        record_of(0x38, &[[(0x01, 100), (0x02, 1), (0x03, 20)].as_slice(), &fields].concat())
    }
    fn seats(threshold: u64) -> Vec<u8> {
        record_of(0x56, &[(0x01, 100), (0x0D, 1), (0x0E, threshold), (0x12, 1)])
    }
    [
        ("rate", |number| round(number, 0)),
        ("round", |number| round(500, number)),
        ("count", |number| schedule(number, 1)),
        ("code", |number| schedule(3, number)),
        ("threshold", seats),
    ]
}
