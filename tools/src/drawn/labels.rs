//! Labels in Graphviz's language.

/// The text inside a label that is written like HTML.
pub fn escaped(text: &str) -> String {
    let mut escaped = String::new();
    for character in text.chars() {
        match character {
            '&' => escaped.push_str("&amp;"),
            '<' => escaped.push_str("&lt;"),
            '>' => escaped.push_str("&gt;"),
            '"' => escaped.push_str("&quot;"),
            '\'' => escaped.push_str("&#39;"),
            // A lone one would begin a word of its own, as \N does for the name of a box.
            '\\' => escaped.push_str("\\\\"),
            // What such labels can't hold.
            '\u{fffe}' | '\u{ffff}' => escaped.push('\u{fffd}'),
            character if character.is_control() => escaped.push('\u{fffd}'),
            character => escaped.push(character),
        }
    }
    escaped
}

/// A label of several lines, the first one bold.
pub fn label(lines: &[String]) -> String {
    let lines: Vec<String> = lines.iter().map(|line| escaped(line)).collect();
    let (first, rest) = lines.split_at(lines.len().min(1));
    let rest: String = rest.iter().map(|line| format!("<br/>{line}")).collect();
    format!("<<b>{}</b>{rest}>", first.concat())
}
