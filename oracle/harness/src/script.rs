//! Scripts: commands written as lines of text, each with the answer that document 01 gives it,
//! worked out by hand.
//!
//! A line is `NAME FIELD=NUMBER ... : ANSWER`, with the names of the journal crate; `for A B` before
//! it repeats it with `%` standing for each number from A to B; `max` is 2^64−1; `use base` takes
//! the lines of `base.txt`. Fields that are not written have the numbers of `USUAL`. A script of a
//! later edition than the first has a line `edition N`.

use journal::{kinds, Command, Kind, Numbers, FIELDS, LATEST, TAGS};

/// A command and its answer.
pub type Step = (Command, u64);

const USUAL: [(&str, u64); 4] = [("now", 100), ("rate", 500), ("duration", 86_400), ("seats", 1)];

const BASE: &str = include_str!("../scripts/base.txt");

/// The edition of a script.
pub fn edition(text: &str) -> u64 {
    let line = text.lines().find_map(|line| line.strip_prefix("edition "));
    line.map_or(1, |number| self::number(number, text))
}

/// The steps of a script. A script is part of this program, so a wrong line is a fault of it.
pub fn steps(text: &str) -> Vec<Step> {
    let mut steps = Vec::new();
    for line in text.lines().map(str::trim) {
        match line {
            "" => {}
            "use base" => steps.extend(self::steps(BASE)),
            _ if line.starts_with('#') || line.starts_with("edition ") => {}
            _ => lines_of(line, &mut steps),
        }
    }
    steps
}

fn lines_of(line: &str, steps: &mut Vec<Step>) {
    match line.strip_prefix("for ") {
        Some(rest) => {
            let mut parts = rest.splitn(3, ' ');
            let mut part = || parts.next().unwrap_or_else(|| panic!("a cut line: {line}"));
            let (first, last, repeated) = (number(part(), line), number(part(), line), part());
            for turn in first..=last {
                steps.push(step(&repeated.replace('%', &turn.to_string())));
            }
        }
        None => steps.push(step(line)),
    }
}

fn step(line: &str) -> Step {
    let (words, answer) = line.split_once(" : ").unwrap_or_else(|| panic!("no answer: {line}"));
    let mut words = words.split(' ');
    let name = words.next().unwrap_or("");
    let kind = kinds(LATEST).find(|kind| kind.name == name);
    let kind = kind.unwrap_or_else(|| panic!("no command: {line}"));
    let mut numbers: Numbers = [0; TAGS];
    USUAL.iter().for_each(|(name, usual)| numbers[tag_of(name, line)] = *usual);
    words.for_each(|word| put(word, kind, line, &mut numbers));
    let command = Command::of_numbers(kind.tag, &numbers).expect("a listed tag");
    (command, number(answer, line))
}

fn put(word: &str, kind: &Kind, line: &str, numbers: &mut Numbers) {
    let (name, text) = word.split_once('=').unwrap_or_else(|| panic!("no field: {line}"));
    let tag = tag_of(name, line);
    assert!(kind.fields(LATEST).contains(&(tag as u8)), "not a field of the command: {line}");
    numbers[tag] = number(text, line);
}

fn tag_of(name: &str, line: &str) -> usize {
    let field = FIELDS.iter().find(|(_, listed)| *listed == name);
    field.unwrap_or_else(|| panic!("no field {name}: {line}")).0.into()
}

fn number(text: &str, line: &str) -> u64 {
    match (text, text.strip_prefix('-')) {
        ("max", _) => Some(u64::MAX),
        (_, Some(digits)) => digits.parse().ok().map(u64::wrapping_neg),
        _ => text.parse().ok(),
    }
    .unwrap_or_else(|| panic!("no number {text}: {line}"))
}

#[cfg(test)]
mod test {
    use super::*;

    #[test]
    fn lines_are_commands() {
        let text =
            "# two accounts\nfor 1 2 open caller=% : 0\ndeposit now=5 caller=1 amount=-1 : 3";
        let open = |caller| (Command::OpenAccount { now: 100, caller }, 0);
        let deposit = (Command::Deposit { now: 5, caller: 1, amount: -1 }, 3);
        assert_eq!(steps(text), [open(1), open(2), deposit]);
    }
}
