//! How many columns a text takes where letters stand in columns, as in a terminal.

use std::ops::RangeInclusive;

/// The East Asian letters and signs that take two columns.
const WIDE: [RangeInclusive<char>; 11] = [
    '\u{1100}'..='\u{115f}',
    '\u{2e80}'..='\u{303e}',
    '\u{3041}'..='\u{a4cf}',
    '\u{a960}'..='\u{a97f}',
    '\u{ac00}'..='\u{d7a3}',
    '\u{f900}'..='\u{faff}',
    '\u{fe30}'..='\u{fe6f}',
    '\u{ff01}'..='\u{ff60}',
    '\u{ffe0}'..='\u{ffe6}',
    '\u{17000}'..='\u{1b2ff}',
    '\u{20000}'..='\u{3fffd}',
];

pub fn is_wide(character: char) -> bool {
    WIDE.iter().any(|range| range.contains(&character))
}

pub fn width(text: &str) -> usize {
    text.chars().map(|character| 1 + usize::from(is_wide(character))).sum()
}

#[cfg(test)]
mod tests {
    use super::width;

    #[test]
    fn letters_take_one_column_or_two() {
        for (text, columns) in
            [("", 0), ("north", 5), ("łódź", 4), ("東京", 4), ("서울", 4), ("かな", 4), ("a北b", 4)]
        {
            assert_eq!(width(text), columns, "{text}");
        }
    }
}
