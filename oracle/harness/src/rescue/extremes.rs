//! Journals at the ends of the rooms that are lent.

use journal::{field, header, journal, Command, HEADER_SIZE};
use side::Room;

/// The longest journal, the longest report and one offset more, one record from the header to the end.
pub fn extremes(edition: u64) -> Vec<Vec<u8>> {
    let most = Room::WIDEST;
    let records =
        |one: &[u8], count: usize| [header(edition).as_slice(), &one.repeat(count)].concat();
    let filled = |one: &[u8]| {
        let mut bytes = records(one, most.output / one.len());
        bytes.resize(most.output, 0xFF);
        bytes
    };
    let open = &journal(edition, &[Command::OpenAccount { now: 100, caller: 1 }])[HEADER_SIZE..];
    let unknown = [&[0x20], &open[1..]].concat();
    let (no_command, no_fields) = ([0xFF, 0, 0], [0x21, 0, 0]);
    let mut journals = vec![
        Vec::new(),
        header(edition).to_vec(),
        records(&no_command, most.report),
        records(&no_fields, most.report + 1),
        filled(&no_command),
        filled(open),
        filled(&unknown),
        filled(&[open, &unknown].concat()),
    ];
    journals.extend([0, 1].map(|more| one_to_the_end(edition, more)));
    journals
}

/// The longest journal with one record, whose outer length is so much more than what is there.
fn one_to_the_end(edition: u64, more: u16) -> Vec<u8> {
    let mut bytes = header(edition).to_vec();
    field(0x21, &vec![0; Room::WIDEST.output - bytes.len() - 3], &mut bytes);
    let length = u16::from_be_bytes([bytes[6], bytes[7]]) + more;
    bytes[6..8].copy_from_slice(&length.to_be_bytes());
    bytes
}
