//! The session of the README: written as text, replayed, read.

use solgaverna::{Journal, Offers, Refusal};

const SESSION: &str = "\
open-account 100 1
open-account 100 2
deposit 100 1 5000
approve 100 1 5000
register 100 2 10 2000
create 100 1 20 10 1000 500 86400 0
counter 100 2 20 900 500 86400 0
amend 100 1 20 900 500 86400 0
amend 100 1 20 900 500 86400 1
accept 100 2 20
";

fn main() -> Result<(), Refusal> {
    let mut journal = Journal::new();
    journal.write(SESSION)?;
    print!("{}", journal.listing());
    let lender = journal.lender(1)?;
    println!("lender 1 offered {} accepted {}", lender.offered, lender.accepted);
    for offer in journal.offers(Offers::ByLender(1))? {
        println!("offer {} amount {} status {}", offer.id, offer.amount, offer.status);
    }
    print!("{}", journal.ask("negotiation 20\nactive 1\n")?);
    Ok(())
}
