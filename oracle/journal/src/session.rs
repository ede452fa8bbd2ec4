//! Document 01's session and its listing, typed from the document.

use crate::Command;

pub fn session() -> Vec<Command> {
    let (now, id, rate, duration) = (100, 20, 500, 86_400);
    let amend =
        |round| Command::AmendOffer { now, caller: 1, id, amount: 900, rate, duration, round };
    vec![
        Command::OpenAccount { now, caller: 1 },
        Command::OpenAccount { now, caller: 2 },
        Command::Deposit { now, caller: 1, amount: 5000 },
        Command::Approve { now, caller: 1, amount: 5000 },
        Command::RegisterInvoice { now, caller: 2, id: 10, amount: 2000 },
        Command::CreateOffer {
            now,
            caller: 1,
            id,
            invoice: 10,
            amount: 1000,
            rate,
            duration,
            expires: 0,
        },
        Command::CounterOffer { now, caller: 2, id, amount: 900, rate, duration, round: 0 },
        amend(0),
        amend(1),
        Command::AcceptOffer { now, caller: 2, id },
    ]
}

pub const SESSION_LISTING: &str = "1 0
2 0
3 0
4 0
5 0
6 0
7 0
8 3
9 0
10 7
account 1 4100 4100 900 900
account 2 900 0 0 0
totals 900 0 0
";
