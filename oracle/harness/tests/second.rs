//! Edition 2 beside the original: from the same rows every command is answered alike, but for an
//! amendment or a counter that the new rule refuses.

use harness::chance::Chance;
use harness::generate::{Generator, Plan};
use harness::given::given;
use journal::Command;
use layer::Original;
use plain::Plain;
use side::{Book, Side};

const EDITION: u64 = 2;

/// What the new rule says of a command: the number that it gives, where it refuses. The tests before
/// it are those that the original takes: an answer of theirs stands.
fn refused(book: &Book, command: &Command) -> Option<u64> {
    let (caller, id, amount, amends) = match *command {
        Command::AmendOffer { caller, id, amount, .. } => (caller, id, amount, true),
        Command::CounterOffer { caller, id, amount, .. } => (caller, id, amount, false),
        _ => return None,
    };
    let offer = book.offers.iter().find(|row| row.id == id)?;
    let Some(invoice) = book.invoices.iter().find(|row| row.id == offer.invoice) else {
        return (amends && caller == offer.lender).then_some(4);
    };
    let party = if amends { offer.lender } else { invoice.originator };
    (caller == party && amount > invoice.amount).then_some(3)
}

/// Whether the tests before the rule pass: not paused, an account that is not blacklisted, ranges.
fn reached(book: &Book, command: &Command) -> bool {
    let (_, numbers) = command.numbers();
    let account = book.accounts.iter().find(|row| row.id == numbers[0x02]);
    !book.paused
        && account.is_some_and(|row| row.blacklisted == 0)
        && (1..=1_000_000_000_000).contains(&(numbers[0x05] as i64))
        && (1..=10_000).contains(&numbers[0x06])
        && (86_400..=31_536_000).contains(&numbers[0x07])
}

/// The original's answer to a command from these rows, and its book after it.
fn original(book: &Book, command: &Command) -> (u64, Book) {
    let (mut original, mut flat) = (Original::default(), Vec::new());
    Book { edition: layer::EDITION, ..book.clone() }.flat(&mut flat);
    original.load(&flat);
    let number = original.run(command).number;
    (number, Book { edition: EDITION, ..original.book() })
}

fn start(chance: &mut Chance, rows: bool) -> Plain {
    let mut plain = Plain::default();
    plain.reset(EDITION);
    if rows {
        let mut flat = Vec::new();
        given(EDITION, chance).flat(&mut flat);
        plain.load(&flat);
    }
    plain
}

#[test]
fn only_the_new_rule_answers_otherwise() {
    let mut met = [0; 2];
    for seed in 0..40 {
        let mut chance = Chance::new(seed);
        let plan = Plan::new(&mut chance);
        let mut plain = start(&mut chance, seed % 2 == 0);
        let mut generator = Generator::new(chance, plan);
        for _ in 0..200 {
            let before = plain.book().clone();
            let command = generator.next(&before);
            let number = plain.run(&command);
            let expected = match refused(&before, &command).filter(|_| reached(&before, &command)) {
                Some(refusal) => {
                    met[refusal as usize - 3] += 1;
                    (refusal, before)
                }
                None => original(&before, &command),
            };
            assert_eq!((number, plain.book()), (expected.0, &expected.1), "{command}");
        }
    }
    assert!(met.iter().all(|times| *times > 20), "{met:?}");
}
