//! `fanchuki draw` to files, and where Graphviz's `dot` is missing or fails.

mod common;

use std::fs;
use std::path::{Path, PathBuf};

use common::stand_in::{run_by_answers, run_by_dot, CALLS_OF_Q};
use common::texts::q;
use common::{empty_folder, example, run, run_of, run_on, tool};

/// Shows what it was given.
const DRAWING: &str = "echo \"drawn by dot $*\"; exec /bin/cat";

fn empty(name: &str) -> PathBuf {
    empty_folder(&format!("draw-{name}"))
}

fn path(folder: &Path, name: &str) -> String {
    folder.join(name).to_str().expect("a path in UTF-8").to_string()
}

fn drawing_of_q() -> String {
    run(&["draw", &example("q.txt")]).text()
}

#[test]
fn to_a_dot_file() {
    let out = path(&empty("to-dot"), "plan.dot");
    let ended = run(&["draw", &example("q.txt"), "-o", &out]);
    assert_eq!((ended.code, ended.text(), ended.said), (0, String::new(), String::new()));
    assert_eq!(fs::read_to_string(out).expect("the drawing"), drawing_of_q());
}

#[test]
fn to_a_picture() {
    let out = path(&empty("to-svg"), "plan.svg");
    let ended = run_by_dot(DRAWING, &["draw", "-o", &out, &example("q.txt")]);
    assert_eq!((ended.code, ended.text(), ended.said), (0, String::new(), String::new()));
    let picture = fs::read_to_string(out).expect("the picture");
    assert_eq!(picture, format!("drawn by dot -Tsvg\n{}", drawing_of_q()));
}

#[test]
fn without_graphviz_the_dot_file_is_written() {
    let folder = empty("missing");
    let [svg, dot] = ["plan.svg", "plan.dot"].map(|name| path(&folder, name));
    let words = ["draw", "-o", &svg, &example("q.txt")];
    let ended = run_of(tool().args(words).env("PATH", &folder));
    assert_eq!((ended.code, ended.text()), (3, String::new()));
    let said = format!(
        "fanchuki: Graphviz's program 'dot' is not there, so {svg} was not drawn; {dot} was \
         written in its place\n"
    );
    assert_eq!(ended.said, said);
    assert_eq!(fs::read_to_string(dot).expect("the drawing"), drawing_of_q());
    assert!(!Path::new(&svg).exists());
}

#[test]
fn graphviz_that_fails_is_a_fault() {
    let unread = "echo 'no such language' >&2; exit 7";
    let silent = "exec /bin/cat >/dev/null";
    for (script, reason) in
        [(unread, "ended by exit status: 7: no such language\n"), (silent, "printed nothing\n")]
    {
        let out = path(&empty("failing"), "plan.svg");
        let ended = run_by_dot(script, &["draw", "-o", &out, &example("star-of-nine.txt")]);
        assert_eq!((ended.code, ended.text()), (3, String::new()));
        let said = format!("fanchuki: Graphviz's program 'dot' made no picture: {reason}");
        assert_eq!(ended.said, said);
        assert!(!Path::new(&out).exists());
    }
}

#[test]
fn what_cannot_be_written_is_a_fault() {
    let folder = empty("unwritable");
    for out in ["no/plan.dot", "no/plan.svg"].map(|name| path(&folder, name)) {
        let words = ["draw", "-o", &out, &example("q.txt")];
        let without_dot = run_of(tool().args(words).env("PATH", &folder));
        for ended in [run_by_dot(DRAWING, &words), without_dot] {
            assert_eq!((ended.code, ended.text()), (3, String::new()));
            assert!(ended.said.contains(" was not written: "), "{}", ended.said);
        }
    }
}

#[test]
fn no_route_is_not_drawn() {
    let closed = q().replace("every line open", "every line closed");
    let out = path(&empty("no-route"), "plan.dot");
    let ended = run_on(&["draw", "-", "-o", &out], closed.as_bytes());
    assert_eq!((ended.code, ended.text()), (1, String::new()));
    assert_eq!(ended.said, "no route trials 3: there is no plan to draw\n");
    assert!(!Path::new(&out).exists());
}

#[test]
fn a_sum_that_is_not_the_proved_cost_is_not_drawn() {
    let out = path(&empty("wrong"), "plan.dot");
    let words = ["draw", &example("q.txt"), "-o", &out];
    let ended = run_by_answers(&CALLS_OF_Q.replace("solved 21", "solved 20"), &words);
    assert_eq!((ended.code, ended.text()), (3, String::new()));
    let said = "fanchuki: the proved cost is 20, and the prices of the plan's steps come to 21\n";
    assert_eq!(ended.said, said);
    assert!(!Path::new(&out).exists());
    assert_eq!(run_by_answers(CALLS_OF_Q, &words).code, 0);
}
