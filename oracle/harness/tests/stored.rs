//! The stored journals, listings, questions and answers beside what the original and the plain model
//! make of them.

use std::fs;
use std::path::{Path, PathBuf};

use harness::reference::Reference;

/// The latest edition that has stored journals of an independent reading.
const STORED: u64 = 5;

/// Who reads a journal.
type Reader = fn(&[u8]) -> Reference;

fn plain(_: &[u8]) -> Reference {
    Reference::Plain(Box::default())
}

/// The stored files of a folder that end so.
fn stored(folder: &str, ending: &str) -> Vec<PathBuf> {
    let cases = Path::new(env!("CARGO_MANIFEST_DIR")).join("../../cases").join(folder);
    let files = fs::read_dir(&cases).unwrap().map(|file| file.unwrap().path());
    let mut files: Vec<_> = files.filter(|file| file.extension().unwrap() == ending).collect();
    files.sort();
    files
}

fn text(file: &Path) -> String {
    fs::read_to_string(file).unwrap()
}

/// The lines of answers in which a side differs: the stored one and its own.
fn other_answers(reader: Reader, folder: &str) -> Vec<[String; 2]> {
    let mut others = Vec::new();
    for questions in stored(folder, "questions") {
        let journal = fs::read(questions.with_extension("journal")).unwrap();
        let answers = text(&questions.with_extension("answers"));
        let given = reader(&journal).side().answers(&journal, &text(&questions)).unwrap();
        assert_eq!(given.lines().count(), answers.lines().count(), "{}", questions.display());
        let both = answers.lines().zip(given.lines()).filter(|(stored, given)| stored != given);
        others.extend(both.map(|(stored, given)| [stored.to_string(), given.to_string()]));
    }
    others
}

fn lists_as_stored(reader: Reader, folder: &str) {
    for journal in stored(folder, "journal") {
        let bytes = fs::read(&journal).unwrap();
        let listing = String::from_utf8(reader(&bytes).side().listing(&bytes)).unwrap();
        assert_eq!(listing, text(&journal.with_extension("listing")), "{}", journal.display());
    }
}

#[test]
fn the_sample_is_stored_as_it_is_answered() {
    let samples = harness::vectors::samples();
    assert_eq!(stored("vectors", "journal").len(), samples.len());
    let asked = samples.iter().filter(|sample| !sample.questions.is_empty());
    assert_eq!(stored("vectors", "questions").len(), asked.count());
    for journal in stored("vectors", "journal") {
        let name = journal.file_stem().unwrap().to_str().unwrap();
        let sample = samples.iter().find(|sample| sample.name == name).unwrap();
        assert!(fs::read(&journal).unwrap() == sample.bytes, "{name}");
        let questions = fs::read_to_string(journal.with_extension("questions"));
        assert_eq!(questions.unwrap_or_default(), sample.questions, "{name}");
    }
    lists_as_stored(Reference::of_journal, "vectors");
    assert!(other_answers(Reference::of_journal, "vectors").is_empty());
}

#[test]
fn an_independent_reading_gives_the_same() {
    for edition in 1..=STORED {
        let folder = format!("edition-{edition}");
        lists_as_stored(plain, &folder);
        assert!(other_answers(plain, &folder).is_empty());
    }
}

/// The original's three other answers are a due with a paid quotient of 2^32, which it cuts to 0: 12 is
/// due, of which the layer takes off the 51,539,607,553 that are repaid.
#[test]
fn an_independent_reading_gives_the_same_as_the_original() {
    lists_as_stored(Reference::of_journal, "edition-1");
    let owed = 12u64.wrapping_sub(51_539_607_553);
    let cut = ["0 0 0".to_string(), format!("0 1 {owed}")];
    assert_eq!(other_answers(Reference::of_journal, "edition-1"), vec![cut; 3]);
}
