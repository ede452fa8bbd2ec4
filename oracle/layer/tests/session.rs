//! Document 01's session through the original.

use journal::{journal, session, SESSION_LISTING};
use layer::{Original, Source};
use side::Side;

#[test]
fn the_original_gives_document_01s_listing() {
    let listing = Original::default().listing(&journal(1, &session()));
    let expected = format!("edition 1\n{SESSION_LISTING}");
    assert_eq!(String::from_utf8(listing).unwrap(), expected);
}

#[test]
fn its_refusals_are_the_contracts_own_codes() {
    let mut original = Original::default();
    let verdicts: Vec<_> = session().iter().map(|command| original.run(command)).collect();
    assert!(verdicts[7].number == 3 && verdicts[7].source == Source::Code);
    assert!(verdicts[9].number == 7 && verdicts[9].source == Source::Code);
    assert!(verdicts[7].line > 0);
}

#[test]
fn a_loaded_book_is_the_book_that_was_shown() {
    let mut original = Original::default();
    for command in session() {
        original.run(&command);
        let (mut shown, mut again) = (Vec::new(), Vec::new());
        original.dump(&mut shown);
        let mut other = Original::default();
        other.load(&shown);
        other.dump(&mut again);
        assert_eq!(shown, again);
    }
}
