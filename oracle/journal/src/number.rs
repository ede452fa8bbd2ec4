//! The fields of commands: their tags, names and types.

/// A field's number as the eight bytes hold it.
pub(crate) trait Number {
    fn of(number: u64) -> Self;
    fn number(self) -> u64;
}

impl Number for u64 {
    fn of(number: u64) -> u64 {
        number
    }
    fn number(self) -> u64 {
        self
    }
}

/// Two's complement.
impl Number for i64 {
    fn of(number: u64) -> i64 {
        number as i64
    }
    fn number(self) -> u64 {
        self as u64
    }
}

/// The reader has refused what does not fit.
impl Number for u32 {
    fn of(number: u64) -> u32 {
        number as u32
    }
    fn number(self) -> u64 {
        self.into()
    }
}

macro_rules! type_of {
    (amount) => {
        i64
    };
    (fee) => {
        i64
    };
    (rate) => {
        u32
    };
    (round) => {
        u32
    };
    (count) => {
        u32
    };
    (code) => {
        u32
    };
    (threshold) => {
        u32
    };
    ($wide:ident) => {
        u64
    };
}

macro_rules! tag_of {
    (now) => {
        0x01
    };
    (caller) => {
        0x02
    };
    (id) => {
        0x03
    };
    (invoice) => {
        0x04
    };
    (amount) => {
        0x05
    };
    (rate) => {
        0x06
    };
    (duration) => {
        0x07
    };
    (expires) => {
        0x08
    };
    (round) => {
        0x09
    };
    (count) => {
        0x0A
    };
    (code) => {
        0x0B
    };
    (first) => {
        0x0C
    };
    (seats) => {
        0x0D
    };
    (threshold) => {
        0x0E
    };
    (fee) => {
        0x0F
    };
    (window) => {
        0x11
    };
    (next) => {
        0x12
    };
    (kind) => {
        0x14
    };
}

pub(crate) use {tag_of, type_of};

/// Field tags lie below this.
pub const TAGS: usize = 0x15;

/// Every field tag with its name.
pub const FIELDS: [(u8, &str); 18] = [
    (tag_of!(now), "now"),
    (tag_of!(caller), "caller"),
    (tag_of!(id), "id"),
    (tag_of!(invoice), "invoice"),
    (tag_of!(amount), "amount"),
    (tag_of!(rate), "rate"),
    (tag_of!(duration), "duration"),
    (tag_of!(expires), "expires"),
    (tag_of!(round), "round"),
    (tag_of!(count), "count"),
    (tag_of!(code), "code"),
    (tag_of!(first), "first"),
    (tag_of!(seats), "seats"),
    (tag_of!(threshold), "threshold"),
    (tag_of!(fee), "fee"),
    (tag_of!(window), "window"),
    (tag_of!(next), "next"),
    (tag_of!(kind), "kind"),
];

/// Tags of the fields whose number fits 32 bits.
pub const NARROW: [u8; 5] =
    [tag_of!(rate), tag_of!(round), tag_of!(count), tag_of!(code), tag_of!(threshold)];

pub fn field_name(tag: u8) -> &'static str {
    FIELDS.iter().find(|(listed, _)| *listed == tag).map_or("?", |(_, name)| name)
}
