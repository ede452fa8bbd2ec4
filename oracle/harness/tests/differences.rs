//! The intended differences of docs/DIFFERENCES.md, each with its smallest input: what the bare
//! original answers and what the port answers. The plain model answers for the port, and the
//! proved book must say the same where its command is named.

use harness::script::steps;
use journal::Command;
use layer::Original;
use plain::Plain;
use port::Port;
use side::{Account, Book, Query, Side, Totals};

/// Accounts 1 and 2, an invoice of account 2 and the least offer on it.
const OFFER: &str = "open caller=1 : 0
open caller=2 : 0
register caller=2 id=10 amount=1 : 0
create caller=1 id=20 invoice=10 amount=1 rate=1 : 0
";

/// The plain model and, where its command is named, the proved book, which must agree.
struct Ported {
    plain: Plain,
    proved: Option<Port>,
}

impl Ported {
    fn start() -> Ported {
        let command = std::env::var(port::COMMAND).ok();
        let mut proved = command.map(|command| Port::start(&command).expect("the program starts"));
        proved.iter_mut().for_each(|proved| proved.reset(layer::EDITION));
        Ported { plain: Plain::default(), proved }
    }

    fn load(&mut self, flat: &[u64]) {
        self.plain.load(flat);
        self.proved.iter_mut().for_each(|proved| proved.load(flat));
    }

    fn run(&mut self, command: &Command) -> u64 {
        let answer = self.plain.run(command);
        let mut record = Vec::new();
        journal::write(layer::EDITION, command, &mut record);
        self.proved.iter_mut().for_each(|proved| assert_eq!(proved.apply(&record), answer));
        answer
    }

    fn ask(&mut self, query: Query) -> [u64; 2] {
        let mut numbers = [9; 2];
        self.plain.ask(query, &mut numbers);
        if let Some(proved) = &mut self.proved {
            let mut same = [9; 2];
            proved.ask(query, &mut same);
            assert_eq!(same, numbers);
        }
        numbers
    }
}

/// The last command's answers: the bare original's, the original's within the port's layer, and
/// the port's.
fn last(text: &str) -> [u64; 3] {
    let (mut bare, mut layered, mut port) =
        (Original::bare(), Original::default(), Ported::start());
    let mut last = [0; 3];
    for (command, _) in steps(text) {
        last = [bare.run(&command).number, layered.run(&command).number, port.run(&command)];
    }
    last
}

/// The answers to one command from given rows.
fn last_from(book: &Book, line: &str) -> [u64; 3] {
    let (mut bare, mut layered, mut port) =
        (Original::bare(), Original::default(), Ported::start());
    let mut flat = Vec::new();
    book.flat(&mut flat);
    bare.load(&flat);
    layered.load(&flat);
    port.load(&flat);
    let (command, _) = steps(line)[0];
    [bare.run(&command).number, layered.run(&command).number, port.run(&command)]
}

#[test]
fn the_paid_quotient_is_compared_whole() {
    let text = "schedule caller=1 id=20 count=1 code=1 first=101 : 0
        repayment-account id=1 : 0
        repaid caller=1 id=20 amount=4294967296 : 0";
    let (mut original, mut port) = (Original::default(), Ported::start());
    for (command, answer) in steps(&[OFFER, text].concat()) {
        assert_eq!((original.run(&command).number, port.run(&command)), (answer, answer));
    }
    let mut due = [9; 2];
    original.ask(Query::Due(20, 101), &mut due);
    assert_eq!(due, [1, 1u64.wrapping_sub(4_294_967_296)]);
    assert_eq!(port.ask(Query::Due(20, 101)), [0, 0]);
}

#[test]
fn amounts_of_offers_end_at_a_trillion() {
    let amend = "amend caller=1 id=20 amount=1000000000001 rate=1 round=0 : 3";
    let counter = "counter caller=2 id=20 amount=1000000000001 rate=1 round=0 : 3";
    assert_eq!(last(&[OFFER, amend].concat()), [0, 3, 3]);
    assert_eq!(last(&[OFFER, counter].concat()), [0, 3, 3]);
}

#[test]
fn amounts_repaid_and_totals_have_a_range() {
    let with = |line: &str| last(&[OFFER, "repayment-account id=1 : 0\n", line].concat());
    assert_eq!(with("repaid caller=1 id=20 amount=-1 : 11"), [0, 11, 11]);
    assert_eq!(with("repaid caller=1 id=20 amount=4000000000000001 : 11"), [0, 11, 11]);
    assert_eq!(with("totals-repaid caller=1 amount=-1 fee=0 : 11"), [0, 11, 11]);
    assert_eq!(with("totals-repaid caller=1 amount=0 fee=4000000000000001 : 11"), [0, 11, 11]);
}

#[test]
fn a_book_has_room_for_sixty_four_offers() {
    let text = "open caller=1 : 0
        open caller=2 : 0
        register caller=2 id=10 amount=1 : 0
        for 1 65 create caller=1 id=% invoice=10 amount=1 rate=1 : 0";
    assert_eq!(last(text), [0, 12, 12]);
}

#[test]
fn parties_and_rows_have_accounts() {
    let register = "open caller=2 : 0\nregister caller=2 id=10 amount=1 : 0\n";
    let create = "create caller=1 id=20 invoice=10 amount=1 rate=1 : 4";
    assert_eq!(last(&[register, create].concat()), [0, 4, 4]);
    assert_eq!(last("repayment-account id=1 : 4"), [0, 4, 4]);
    let lender = "open caller=1 : 0
        repayment-account id=1 : 0
        lender-repaid caller=1 id=9 code=0 : 4";
    assert_eq!(last(lender), [0, 4, 4]);
}

#[test]
fn totals_and_counts_of_lenders_have_a_range() {
    let accounts = |lender| vec![lender, Account { id: 2, ..Account::default() }];
    let invoices = vec![side::Invoice { id: 10, originator: 2, amount: 1, status: 0 }];
    let lender = Account { id: 1, ..Account::default() };
    let create = "create caller=1 id=20 invoice=10 amount=1 rate=1 : 11";
    let book = |lender, totals| Book {
        accounts: accounts(lender),
        invoices: invoices.clone(),
        totals,
        ..Book::fresh()
    };
    let most = 4_000_000_000_000_000;
    let fresh = Totals::default();
    let offered = book(Account { offered: most, ..lender }, fresh);
    let pending = book(Account { pending: 1_000_000, ..lender }, fresh);
    let offers = book(lender, Totals { offers: 1_000_000, ..fresh });
    for full in [offered, pending, offers] {
        assert_eq!(last_from(&full, create), [0, 11, 11]);
    }
    let repaid =
        Book { repayment: Some(1), ..book(Account { repaid: 1_000_000, ..lender }, fresh) };
    assert_eq!(last_from(&repaid, "lender-repaid caller=1 id=1 code=1 : 11"), [0, 11, 11]);
}

#[test]
fn the_fresh_window_is_a_week() {
    let text = "amend now=0 caller=1 id=20 amount=1 rate=1 round=0 : 0
        amend now=604800 caller=1 id=20 amount=1 rate=1 round=1 : 0
        amend now=604801 caller=1 id=20 amount=1 rate=1 round=2 : 7";
    assert_eq!(last(&[OFFER, text].concat()), [7, 7, 7]);
}
