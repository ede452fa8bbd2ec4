//! The lines of the original's text that can refuse.

/// Lines of the text that refuse: codes, asserts, panics, authorisations and other contracts.
pub fn refusing_lines() -> Vec<(u32, &'static str)> {
    const REFUSING: [&str; 6] = [
        ".panic_with_error(",
        "assert!(",
        "panic!(",
        ".require_auth()",
        "registry_client.get_invoice(",
        "token_client.transfer_from(",
    ];
    const CHECKS: [&str; 4] = [
        "assert_not_paused(&env);",
        "invofi_common::assert_threshold(",
        "invofi_common::validate_signers(",
        "registry_client.financing_marks_invoice_financed(",
    ];
    let code = |line: &str| !line.trim_start().starts_with("//");
    let refuses = |line: &str| REFUSING.iter().chain(&CHECKS).any(|form| line.contains(form));
    let numbered = (1..).zip(original::TEXT.lines());
    numbered
        .filter(|(_, line)| code(line) && refuses(line))
        .map(|(n, line)| (n, line.trim()))
        .collect()
}

/// Refusing lines that no command of the journal reaches, and why.
pub const BEYOND: &[(u32, &str)] = &[
    (170, STARTED),
    (223, LEFT_BEHIND),
    (265, LEFT_BEHIND),
    (271, LEFT_BEHIND),
    (293, LEFT_BEHIND),
    (312, LEFT_BEHIND),
    (362, SIGNED),
    (384, STARTED),
    (448, QUERY),
    (454, SIGNED),
    (482, SIGNED),
    (503, STARTED),
    (581, READ_BEFORE),
    (620, SIGNED),
    (635, STARTED),
    (735, SIGNED),
    (819, SIGNED),
    (834, STARTED),
    (883, SIGNED),
    (900, READ_BEFORE),
    (906, STARTED),
    (1034, READ_BEFORE),
    (1040, STARTED),
    (1308, SIGNED),
    (1336, STARTED),
];
const STARTED: &str = "the contract is constructed before the first command";
const LEFT_BEHIND: &str = "the function is left behind";
const SIGNED: &str = "the caller signs the command that names it";
const QUERY: &str = "a query, compared as such";
const READ_BEFORE: &str = "the row was read earlier in the same call";

#[cfg(test)]
mod test {
    use super::*;

    #[test]
    fn lines_beyond_a_journal_are_refusing_lines() {
        let lines = refusing_lines();
        for (line, why) in BEYOND {
            assert!(lines.iter().any(|(refusing, _)| refusing == line), "{line}: {why}");
        }
    }
}
