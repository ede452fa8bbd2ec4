//! Spoiling one field of a command.

use journal::{Command, NARROW};
use plain::edition::most_rounds;
use side::Book;

use super::{Generator, DAY, MOST_HELD, TRILLION, UNKNOWN_KINDS, YEAR};

impl Generator {
    /// The command with one field replaced by another's value, an edge or anything.
    pub(super) fn spoil(&mut self, command: &Command, book: &Book) -> Command {
        let (tag, mut numbers) = command.numbers();
        let fields = command.kind().fields(book.edition);
        let field = self.chance.pick(&fields[1..]);
        let place = &mut numbers[field as usize];
        *place = match self.chance.below(10) {
            0 => self.chance.number(),
            1..3 => self.beside(*place),
            _ => self.spoiled_field(field, book),
        };
        if NARROW.contains(&field) {
            *place &= 0xFFFF_FFFF;
        }
        Command::of_numbers(tag, &numbers).expect("a command's tag")
    }

    fn spoiled_field(&mut self, field: u8, book: &Book) -> u64 {
        let last = most_rounds(book.edition) as u64;
        match field {
            0x02 => match self.chance.below(4) {
                0 => self.new_id(),
                _ => self.any_account(book),
            },
            0x03 | 0x04 => match self.chance.below(3) {
                0 => self.any_offer(book).map_or(0, |offer| offer.id),
                1 => book.invoices.first().map_or(0, |invoice| invoice.id),
                _ => self.new_id(),
            },
            0x05 | 0x0F => self.edge_amount(),
            0x06 => self.chance.pick(&[0, 1, 10_000, 10_001, u32::MAX.into()]),
            0x07 => self.chance.pick(&[0, DAY - 1, DAY, YEAR, YEAR + 1, u64::MAX]),
            0x09 => self.chance.pick(&[0, 1, last - 1, last, last + 1, u32::MAX.into()]),
            0x0A => self.chance.pick(&[0, 1, 1_200, 1_201, u32::MAX.into()]),
            0x0B => self.chance.pick(&[0, 1, 2, 3, 4, 5, 6, u32::MAX.into()]),
            0x0E => self.chance.pick(&[0, 1, 2, 32, 33, u32::MAX.into()]),
            0x11 => self.chance.pick(&[0, 3_599, 3_600, 2_592_000, 2_592_001, u64::MAX]),
            0x12 => self.chance.pick(&[0, 1, 1 << 32, u64::MAX, 0xFFFF_FFFF]),
            0x14 => self.chance.pick(&UNKNOWN_KINDS),
            _ => self.chance.pick(&[0, 1, u64::MAX, 1 << 31, 1 << 32]),
        }
    }

    fn edge_amount(&mut self) -> u64 {
        let edges = [0, 1, TRILLION, TRILLION + 1, MOST_HELD, MOST_HELD + 1, 1 << 63];
        let edge = self.chance.pick(&edges);
        match self.chance.below(3) {
            0 => edge.wrapping_neg(),
            1 => edge.wrapping_sub(1),
            _ => edge,
        }
    }
}
