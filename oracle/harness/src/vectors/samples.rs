//! The journals of the sample.

use journal::{header, journal, session, Command, HEADER_SIZE, LATEST};

use super::answers;
use super::malformed::malformed;
use super::questions::{is_asked, questions};
use crate::chance::Chance;
use crate::generate::{Generator, Plan};
use crate::reference::Reference;
use crate::script::{edition, steps, Step};

/// A journal, what it is for and the questions about it, if any.
pub struct Sample {
    pub name: String,
    pub what: String,
    pub bytes: Vec<u8>,
    pub questions: String,
}

macro_rules! scripts {
    ($($name:literal)*) => {
        /// Each script with its name; its first comments say what it shows.
        pub(super) const SCRIPTS: &[(&str, &str)] =
            &[$(($name, include_str!(concat!("../../scripts/", $name, ".txt")))),*];
    };
}

scripts! {
    "21-open" "22-deposit" "23-payout" "24-approve" "25-register" "26-cancel"
    "31-create" "32-withdraw" "33-accept" "34-reject"
    "35-amend" "35-agreement" "35-held" "36-counter" "36-expiry" "36-held"
    "37-close" "37-deadline" "37-rounds" "37-sixteen" "37-twelve" "38-schedule" "38-leftover"
    "38-falling"
    "41-status" "41-reopened" "42-repaid" "43-lender-repaid" "44-totals-repaid"
    "51-pause" "53-window" "54-repayment-account" "55-blacklist" "56-seats"
}

pub(super) fn sample(name: &str, what: &str, bytes: Vec<u8>) -> Sample {
    let (name, what) = (name.to_string(), what.to_string());
    Sample { name, what, bytes, questions: String::new() }
}

/// Every sample, in the order in which they are written.
pub fn samples() -> Vec<Sample> {
    let mut samples = vec![sample("session", "document 01's session", journal(1, &session()))];
    for (name, text) in SCRIPTS {
        let what: Vec<_> = text.lines().map_while(|line| line.strip_prefix("# ")).collect();
        let bytes = journal(edition(text), &commands(&steps(text)));
        samples.push(sample(name, &what.join(" "), bytes));
    }
    samples.extend(headers());
    samples.extend(malformed());
    samples.extend(generated());
    samples.extend(sizes());
    for sample in samples.iter_mut().filter(|sample| is_asked(&sample.name)) {
        sample.questions = asked(sample);
    }
    samples
}

/// Questions about the book that a journal leaves. The name is the seed, so that a
/// sample's questions do not hang on those before it.
fn asked(sample: &Sample) -> String {
    let mut reference = Reference::of_journal(&sample.bytes);
    reference.side().listing(&sample.bytes);
    let now = answers(&sample.bytes).last().map_or(0, |(command, _)| command.now());
    let bytes = sample.name.bytes();
    let seed = bytes.fold(0u64, |seed, byte| seed.wrapping_mul(31).wrapping_add(byte.into()));
    questions(&reference.book(), now, &mut Chance::new(seed))
}

fn commands(steps: &[Step]) -> Vec<Command> {
    steps.iter().map(|(command, _)| *command).collect()
}

fn headers() -> Vec<Sample> {
    let with = |name: &str, what: &str, bytes: &[u8]| sample(name, what, bytes.to_vec());
    let session = journal(1, &session());
    let records = &session[HEADER_SIZE..];
    let after = |bytes: &[u8]| [bytes, records].concat();
    let named = |name: &str, what: &str, edition| with(name, what, &after(&header(edition)));
    let mut samples = vec![
        with("header-empty", "no bytes at all", &[]),
        with("header-alone", "a header and nothing after it", &header(1)),
        with("header-cut", "four bytes of the header", &header(1)[..4]),
        with("header-tag", "another tag first", &after(&[0x11, 0, 2, 0, 1])),
        with("header-length", "a header of length 3", &after(&[0x10, 0, 3, 0, 0, 1])),
        named("header-edition-0", "edition 0", 0),
        named("header-edition-next", "the edition after the latest", LATEST + 1),
        named("header-edition-257", "edition 257", 257),
        named("header-edition-65535", "edition 65535", 65_535),
        with("header-missing", "records without a header", records),
    ];
    samples.extend((2..=LATEST).map(later_session));
    samples
}

fn later_session(edition: u64) -> Sample {
    let name = format!("session-edition-{edition}");
    sample(&name, &format!("the session in edition {edition}"), journal(edition, &session()))
}

/// Journals of the generator, long and short, and one of each later edition.
fn generated() -> Vec<Sample> {
    let mut samples = Vec::new();
    for (number, most) in (1..).zip([6_000, 6_000, 6_000, 6_000, 6_000, 6_000, 32_768, 32_768]) {
        let (name, what) = (format!("generated-{number}"), "commands of the generator");
        samples.push(sample(&name, what, generate(1, number, most)));
    }
    for edition in 2..=LATEST {
        let name = format!("generated-edition-{edition}");
        let what = format!("commands of the generator in edition {edition}");
        samples.push(sample(&name, &what, generate(edition, 10 + edition, 6_000)));
    }
    samples
}

/// A journal of an edition from this seed, so long at most.
fn generate(edition: u64, seed: u64, most: usize) -> Vec<u8> {
    let mut chance = Chance::new(seed);
    let plan = Plan { length: 2_000, ..Plan::new(&mut chance) };
    let mut generator = Generator::new(chance, plan);
    let (mut reference, mut bytes) = (Reference::of(edition), journal(edition, &[]));
    loop {
        let command = generator.next(&reference.book());
        let length = bytes.len();
        journal::write(edition, &command, &mut bytes);
        if bytes.len() > most {
            bytes.truncate(length);
            return bytes;
        }
        reference.run(&command);
    }
}

/// Journals of exactly 32,768 bytes and of one more. 900 records with 2733 fields fill the first:
/// 40 openings, 73 invoices (of which the table takes 64) and 787 movements of money.
fn sizes() -> Vec<Sample> {
    let now = 100;
    let mut commands: Vec<_> = (0..40).map(|caller| Command::OpenAccount { now, caller }).collect();
    for id in 0..73 {
        let (caller, amount) = (id % 40, id as i64 + 1);
        commands.push(Command::RegisterInvoice { now, caller, id, amount });
    }
    for turn in 0..787 {
        let (caller, amount) = (turn % 40, turn as i64 + 1);
        commands.push(match turn % 3 {
            0 => Command::Deposit { now, caller, amount },
            1 => Command::Approve { now, caller, amount },
            _ => Command::Payout { now, caller, amount },
        });
    }
    let full = journal(1, &commands);
    let more = [full.as_slice(), &[0x21]].concat();
    vec![
        sample("size-32768", "exactly 32,768 bytes", full),
        sample("size-32769", "one byte more: only `0 14`", more),
        sample("size-40000", "40,000 zero bytes: only `0 14`", vec![0; 40_000]),
    ]
}
