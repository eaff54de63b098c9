//! `fanchuki check`: the verdict is the proved one, and every refusal has its words.

mod common;

use std::fs;

use common::examples::{self, EXAMPLES};
use common::proved;
use common::{example, held_to, run, run_on, scratch, stored};
use fanchuki::checked::plan_text::{self, PlanText};
use fanchuki::checked::verdict::verdict;
use reference::generate::plans;
use reference::generate::queries::{self, Extent};
use reference::limits::MOST_STEPS;
use reference::method::Method;
use reference::pinned;
use reference::random::Random;
use reference::solve;

/// The code and what is printed or said of a plan for Q.
fn check(plan: &[u8]) -> (i32, String) {
    let run = run_on(&["check", &example("q.txt"), "-"], plan);
    assert!(run.printed.is_empty() || run.said.is_empty());
    (run.code, run.text() + &run.said)
}

#[test]
fn a_printed_plan_checks_at_its_own_cost() {
    for name in EXAMPLES {
        let printed = run(&["plan", &examples::text(name)]).text();
        let cost = printed.split(' ').nth(3).expect("a cost");
        let accepted = format!("accepted at {cost}\nthis is the cheapest cost\n");
        for file in [vec![examples::text(name)], examples::packed(name)] {
            let words = [&["check".into()], &file[..], &["-".into()]].concat();
            let checked = run_on(&words, printed.as_bytes());
            assert_eq!(checked.told(), (0, accepted.clone(), String::new()), "{words:?}");
        }
    }
}

/// What docs/RULES.md, 14.2, and docs/FORMAT.md say of plans for Q.
#[test]
fn plans_for_q_are_stored() {
    let texts: [&str; 15] = [
        "load 1\nsend 0\nload 0\njoin 0\n",
        "load 0\nload 1\nsend 2\nsend 0\njoin 0\n",
        "load 0\nsend to 1\nload 1\njoin 0\nsend to site 0\n",
        "load 0 # customers\n\n2, 2\nload 1\n2 2\n3 0\n2 0\n",
        "",
        "load 0\nsend 3\n",
        "4 0\n",
        "join 1\n",
        "load 0\nload 1\n\nload 0\n",
        "send 0\n",
        "load 0\nsend 0\n",
        "load 0\nsend 1\nsend 0\n",
        "join 0\n",
        "load 0\nload 1\njoin 0\n",
        "load 0\nload 1\n",
    ];
    let mut transcript = String::new();
    for text in texts {
        let (code, said) = check(text.as_bytes());
        transcript += &format!("{text}-> {code} {said}\n");
    }
    for bytes in
        [&b"\x04\x01\0\x01\x01\x02\0\x03"[..], b"\x89\x01", b"\0", b"\x01\x04\0", b"\x01\x02\x03"]
    {
        let (code, said) = check(bytes);
        transcript += &format!("{bytes:?}\n-> {code} {said}\n");
    }
    held_to("check-q.txt", &transcript);
}

/// Sites that may not join, closed lines, joins that do not link, several reasons at once.
#[test]
fn a_chain_with_names_is_stored() {
    let mut query = pinned::chain_of_five();
    query.sites[1].may_join = false;
    query.line_mut(0, 2).open = false;
    let texts: [&str; 11] = [
        "load customers\nsend to south\nload orders\njoin 0\n",
        "load customers\nsend east\n",
        "load customers\nsend south\nsend south\n",
        "load customers\nload items\njoin 0\n",
        "load orders\nsend north\nload items\nsend north\njoin 0\n",
        "load customers\nload orders\nsend north\njoin 0\nload items\nsend north\njoin 0\n",
        "load orders\n\nload items\n# again\nload orders\n",
        "load items\nload orders\nload orders\n",
        "load customers\n",
        "load orders\nload customers\nload items\n",
        "load items\njoin 1\n",
    ];
    let mut loaded = proved::running();
    proved::put(&mut loaded, query.into());
    loaded.names = proved::names(&["north", "south", "east"], &["customers", "orders", "items"]);
    let mut transcript = String::new();
    for text in texts {
        let plan = plan_text::parse(text, &loaded.names).expect("a plan");
        let done = verdict(&mut loaded, &plan).expect("a verdict");
        assert_eq!(done.code, 1);
        transcript += &format!("{text}-> {}\n", String::from_utf8(done.printed).expect("UTF-8"));
    }
    held_to("check-names.txt", &transcript);
}

#[test]
fn the_text_s_faults_refuse_it() {
    let (code, said) = check(b"load 0\nlod 1\n\nsend\n");
    assert_eq!(code, 1);
    let lines: Vec<&str> = said.lines().collect();
    assert_eq!(lines.len(), 7, "{said}");
    assert!(lines[0].starts_with("standard input:2:1: 'lod' "), "{said}");
    assert!(lines[3].starts_with("standard input:4:5: "), "{said}");
    assert_eq!((lines[5], lines[6]), ("      ^", "2 faults"), "{said}");
    assert_eq!(check(b"load \xff\n").0, 1);
}

/// Relation 1 goes to and fro, each time for 2, before it is joined for 19.
#[test]
fn as_many_steps_as_may_be() {
    let sends = MOST_STEPS - 3;
    let to_and_fro: String = (0..sends).map(|send| format!("send {}\n", send % 2)).collect();
    let plan = format!("load 1\n{to_and_fro}load 0\njoin 0\n");
    let cost = 2 * sends + 19;
    let told = format!("accepted at {cost}\nthe cheapest costs 21, {} less\n", cost - 21);
    assert_eq!(check(plan.as_bytes()), (0, told));
    let (code, said) = check(format!("{plan}\nload 0\nload 0\n").as_bytes());
    let line = MOST_STEPS + 2;
    let told = format!(":{line}:1: a plan has at most {MOST_STEPS} steps, and this is one more\n");
    assert!(code == 1 && said.ends_with(&(told + "  load 0\n  ^\n")), "{said}");
}

/// All 100 bytes of relation 0 are read, unless it stays at home.
#[test]
fn home_again_without_the_index() {
    let text = "sites 0 to 1 may join, fixed 2, rate 1\nrelation 0 at site 0, indexed\n\
                relation 1 at site 0\njoin 0 links 0 and 1\nsize of 0 is 100\nsize of 1 is 4\n\
                size of 0 1 is 3\nevery line open, fixed 0, rate 0\ndelivery to site 0\n";
    let plan = scratch("home-again.txt");
    fs::write(&plan, "load 0\nsend 1\nsend 0\nload 1\njoin 0\n").expect("the plan is written");
    let run = run_on(&["check", "-", &plan], text.as_bytes());
    assert_eq!(run.text(), "accepted at 109\nthe cheapest costs 9, 100 less\n", "{}", run.said);
}

#[test]
fn bytes_of_any_length() {
    for length in [100, 65_535, 65_536, 70_000] {
        let (code, said) = check(&vec![4; length]);
        assert_eq!(code, 1);
        assert_eq!(said, format!("refused 7: a count of 4 wants 9 bytes, and it has {length}\n"));
    }
}

#[test]
fn usage() {
    let q = example("q.txt");
    for words in [&["check"][..], &["check", &q], &["check", "-", "-"], &["check", &q, "-", "x"]] {
        let run = run_on(words, b"load 0\n");
        assert_eq!((run.code, run.printed.len()), (2, 0), "{words:?}");
    }
    assert_eq!(run(&["check", &q, "/no/such/plan"]).code, 2);
    let query = fs::read(&q).expect("the example");
    let plan = stored("plan-q.txt");
    assert_eq!(run_on(&["check", "-", &plan], &query).code, 0);
}

#[test]
fn thousands_of_plans_have_one_verdict_and_words() {
    let mut loaded = proved::running();
    let mut met = [0; 13];
    for case in 0..400 {
        let mut random = Random::for_case(73, case);
        let extent = if case % 2 == 0 { Extent::full() } else { Extent::small() };
        let query = queries::query(&mut random, &extent);
        let cheapest = solve::solve(&query, Method::Rules).map(|plan| plan.steps);
        proved::put(&mut loaded, query.into());
        for _ in 0..20 {
            let plan = plans::to_check(&mut random, &loaded.query, cheapest.as_deref());
            let plan = PlanText { plan, lines: Vec::new() };
            let done = verdict(&mut loaded, &plan).expect("a verdict");
            met[judged(&String::from_utf8(done.printed).expect("UTF-8"), done.code)] += 1;
        }
    }
    for number in [0, 7, 8, 9, 10, 11, 12] {
        assert!(met[number] > 50, "{number}: {met:?}");
    }
}

/// The number of a refusal that has its words, 0 of a plan that is accepted.
fn judged(printed: &str, code: u8) -> usize {
    if code == 0 {
        assert!(printed.starts_with("accepted at ") && printed.lines().count() == 2, "{printed}");
        return 0;
    }
    let (place, reason) = printed.split_once(": ").expect("a place and a reason");
    assert!(reason.trim().len() > 10, "{printed}");
    let number: usize = place.split(' ').nth(1).and_then(|it| it.parse().ok()).expect("a number");
    assert_eq!(number != 7, place.contains(" at "), "{printed}");
    number
}
