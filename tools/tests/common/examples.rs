//! The examples of the repository that are queries.

use super::{example, held_to, run};

pub const EXAMPLES: [&str; 6] =
    ["q", "chain-of-five", "longest-plan", "star-of-nine", "two-indexes", "chain-from-rows"];

pub fn text(name: &str) -> String {
    example(&format!("{name}.txt"))
}

/// The packed file, and the option that goes with it.
pub fn packed(name: &str) -> Vec<String> {
    match name {
        "chain-from-rows" => vec![example("chain-from-rows.rows"), "--rows".into()],
        _ => vec![example(&format!("{name}.query"))],
    }
}

/// Of every example's text and file, the subcommand prints what is stored.
pub fn are_stored(subcommand: &str, ending: &str) {
    for name in EXAMPLES {
        let of_text = run(&[subcommand, &text(name)]);
        assert_eq!((of_text.code, of_text.said.as_str()), (0, ""), "{name}");
        let of_file = run(&[vec![subcommand.to_string()], packed(name)].concat());
        assert_eq!(of_text, of_file, "{name}");
        held_to(&format!("{subcommand}-{name}.{ending}"), &of_text.text());
    }
}
