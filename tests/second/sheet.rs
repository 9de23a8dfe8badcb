//! The words of the sheet, docs/SHEET.md: the reason beside each number, as its table has it.

const SHEET: &str = include_str!("../../docs/SHEET.md");

/// The reason for which a program refuses by this number.
pub fn reason(number: u32) -> &'static str {
    let row = format!("| {number} | ");
    let mut reasons = SHEET.lines().filter_map(|line| line.strip_prefix(&row)?.strip_suffix(" |"));
    let reason = reasons.next().unwrap_or_else(|| panic!("docs/SHEET.md has no reason {number}"));
    assert!(reasons.next().is_none(), "docs/SHEET.md has two reasons {number}");
    reason
}

/// Whether the sheet has these words.
pub fn has(words: &str) -> bool {
    SHEET.contains(words)
}
