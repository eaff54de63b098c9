//! The query of docs/TUTORIAL.md, whose sites and relations have names, through the subcommands.

mod common;

use common::{example, held_to, run, run_on, Run};

fn done(words: &[&str]) -> Run {
    let run = run(words);
    assert_eq!((run.code, run.said.as_str()), (0, ""), "{words:?}");
    run
}

#[test]
fn plan_explain_draw_and_whatif_tell_names() {
    let shop = example("shop.txt");
    held_to("plan-shop.txt", &done(&["plan", &shop]).text());
    held_to("explain-shop.txt", &done(&["explain", &shop]).text());
    held_to("draw-shop.dot", &done(&["draw", &shop]).text());
    let lines = ["--line", "west", "south", "closed", "--line", "0", "west"];
    held_to("whatif-shop.txt", &done(&[&["whatif", &shop], &lines[..]].concat()).text());
}

/// Names and numbers say the same.
#[test]
fn the_packed_file_has_the_plan_by_numbers() {
    let shop = example("shop.query");
    let by_names = done(&["plan", &example("shop.txt")]).text();
    let numbers = ["orders", "customers", "articles", "makers", "north", "south", "west"];
    let numbered = numbers.iter().enumerate().fold(by_names, |text, (place, name)| {
        text.replace(name, &(if place < 4 { place } else { place - 4 }).to_string())
    });
    assert_eq!(done(&["plan", &shop]).text(), numbered);
    let unpacked = done(&["unpack", &shop]).text();
    held_to("unpack-shop.txt", &unpacked);
    assert_eq!(done_on(&["plan", "-"], &unpacked), numbered);
}

#[test]
fn a_plan_is_checked_by_names_or_numbers() {
    let shop = example("shop.txt");
    let by_names = done(&["plan", &shop]).text();
    let by_numbers = done(&["plan", &example("shop.query")]).text();
    let polite = by_names.replace("send ", "send to ");
    for plan in [by_names, by_numbers, polite] {
        let told = done_on(&["check", &shop, "-"], &plan);
        assert_eq!(told, "accepted at 1266\nthis is the cheapest cost\n");
    }
}

fn done_on(words: &[&str], input: &str) -> String {
    let run = run_on(words, input.as_bytes());
    assert_eq!((run.code, run.said.as_str()), (0, ""), "{words:?}");
    run.text()
}
