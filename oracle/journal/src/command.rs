//! The commands by value, one line each.

use crate::edition::{since, LATEST};
use crate::number::{tag_of, type_of, Number, TAGS};

/// A command's tag and its name.
pub struct Kind {
    pub tag: u8,
    pub name: &'static str,
    // The tags of its fields in every edition, ascending.
    fields: &'static [u8],
}

impl Kind {
    /// The tags of its fields in an edition, ascending.
    pub fn fields(&self, edition: u64) -> Vec<u8> {
        let held = |field: &u8| since(self.tag, *field) <= edition;
        self.fields.iter().copied().filter(held).collect()
    }
}

/// Numbers by field tag; those that a command does not hold are 0.
pub type Numbers = [u64; TAGS];

macro_rules! commands {
    ($($tag:literal $name:literal $case:ident { $($field:ident)* })*) => {
        #[derive(Clone, Copy, Debug, PartialEq, Eq)]
        pub enum Command {
            $($case { $($field: type_of!($field)),* },)*
        }

        const KINDS: [Kind; 24] = [
            $(Kind { tag: $tag, name: $name, fields: &[$(tag_of!($field)),*] },)*
        ];

        impl Command {
            /// The command that a tag and its fields' numbers say.
            pub fn of_numbers(tag: u8, numbers: &Numbers) -> Option<Command> {
                match tag {
                    $($tag => Some(Command::$case {
                        $($field: Number::of(numbers[tag_of!($field)])),*
                    }),)*
                    _ => None,
                }
            }

            /// The command's tag and its fields' numbers.
            pub fn numbers(&self) -> (u8, Numbers) {
                let mut numbers = [0; TAGS];
                match *self {
                    $(Command::$case { $($field),* } => {
                        $(numbers[tag_of!($field)] = $field.number();)*
                        ($tag, numbers)
                    })*
                }
            }

            pub fn now(&self) -> u64 {
                match *self {
                    $(Command::$case { now, .. } => now,)*
                }
            }
        }
    };
}

commands! {
    0x21 "open" OpenAccount { now caller }
    0x22 "deposit" Deposit { now caller amount }
    0x23 "payout" Payout { now caller amount }
    0x24 "approve" Approve { now caller amount }
    0x25 "register" RegisterInvoice { now caller id amount }
    0x26 "cancel" CancelInvoice { now caller id }
    0x31 "create" CreateOffer { now caller id invoice amount rate duration expires }
    0x32 "withdraw" WithdrawOffer { now caller id }
    0x33 "accept" AcceptOffer { now caller id }
    0x34 "reject" RejectOffer { now caller id }
    0x35 "amend" AmendOffer { now caller id amount rate duration round }
    0x36 "counter" CounterOffer { now caller id amount rate duration round }
    0x37 "close" CloseNegotiation { now caller id }
    0x38 "schedule" ScheduleRepayment { now caller id count code first kind }
    0x41 "status" UpdateStatus { now caller id code }
    0x42 "repaid" UpdateRepaid { now caller id amount }
    0x43 "lender-repaid" UpdateLenderRepaid { now caller id code }
    0x44 "totals-repaid" UpdateTotalsRepaid { now caller amount fee }
    0x51 "pause" Pause { now seats }
    0x52 "unpause" Unpause { now seats }
    0x53 "window" SetWindow { now seats window }
    0x54 "repayment-account" SetRepaymentAccount { now id seats }
    0x55 "blacklist" SetBlacklisted { now id code seats }
    0x56 "seats" SetSeats { now seats threshold next }
}

/// The commands of an edition.
pub fn kinds(edition: u64) -> impl Iterator<Item = &'static Kind> {
    KINDS.iter().filter(move |kind| since(kind.tag, tag_of!(now)) <= edition)
}

/// The kind that a tag names in an edition.
pub fn listed(edition: u64, tag: u8) -> Option<&'static Kind> {
    kinds(edition).find(|kind| kind.tag == tag)
}

impl Command {
    pub fn kind(&self) -> &'static Kind {
        listed(LATEST, self.numbers().0).expect("every command's tag is listed")
    }
}

/// One line: the name, then each field's name and number.
impl std::fmt::Display for Command {
    fn fmt(&self, out: &mut std::fmt::Formatter) -> std::fmt::Result {
        let (kind, (_, numbers)) = (self.kind(), self.numbers());
        write!(out, "{:02X} {}", kind.tag, kind.name)?;
        for tag in kind.fields(LATEST) {
            let (name, number) = (crate::field_name(tag), numbers[tag as usize]);
            if [tag_of!(amount), tag_of!(fee)].contains(&tag) {
                write!(out, " {name}={}", number as i64)?;
            } else {
                write!(out, " {name}={number}")?;
            }
        }
        Ok(())
    }
}
