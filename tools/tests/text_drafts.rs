//! Drafts: texts that leave out what room does not ask for, and what is said of them where a
//! whole query is wanted.

mod common;

use std::fs;

use common::texts::{self, told};
use fanchuki::text::{draft, parse};
use reference::generate::queries::{self, Extent};
use reference::random::Random;
use reference::room::{room, Draft, Figures};
use reference::text::print;

/// A chain of three at two sites.
const BARE: &str = "sites 0 to 1
relations 0 to 2
join 0 links 0 and 1
join 1 links 2 and 1
";

fn chain_of_three() -> Draft {
    Draft { relations: 3, sites: 2, joins: vec![0, 1, 2, 1] }
}

#[test]
fn bare_statements_make_a_draft() {
    assert_eq!(draft(BARE), Ok(chain_of_three()));
    let one_by_one = BARE
        .replace("sites 0 to 1", "site 0\nsite 1")
        .replace("relations 0 to 2", "relation 0\nrelation 1\nrelation 2");
    assert_eq!(draft(&one_by_one), Ok(chain_of_three()));
    let turned = "join 0 links 0 and 1 # either way
        join 1 links 2, and 1\nrelations 0 to 2\nsites 0 to 1";
    assert_eq!(draft(turned), Ok(chain_of_three()));
    let alone = draft("site 0\nrelation 0");
    assert_eq!(alone, Ok(Draft { relations: 1, sites: 1, joins: vec![] }));
}

#[test]
fn a_draft_may_have_names() {
    let named = "sites north south\nrelations orders customers items
        join 0 links orders and customers\njoin 1 links items and customers\n";
    assert_eq!(draft(named), Ok(chain_of_three()));
    let by_both = named.replace("items and customers", "2 and 1");
    assert_eq!(draft(&by_both), Ok(chain_of_three()));
    let said = told(&draft(&named.replace("links orders", "links order")).expect_err("a fault"));
    assert_eq!(said, "3:22: no relation 'order'; did you mean 'orders'?\n");
}

/// What is known already may stand beside what is not.
#[test]
fn a_draft_may_say_more() {
    let more = "site 0 may not join, fixed 1, rate 2
        sites 1 to 1
        relation 0 at site 0, indexed
        relations 1 to 2
        join 0 links 0 and 1
        join 1 links 2 and 1
        size of 0 is 3
        line 0 to 1 closed, fixed 0, rate 0
        delivery to site 1";
    assert_eq!(draft(more), Ok(chain_of_three()));
    let rows = [BARE, "rows of 1 are 5\ndivisor of join 0 is 2\n"].concat();
    assert_eq!(draft(&rows), Ok(chain_of_three()));
}

#[test]
fn a_whole_text_is_a_draft_too() {
    for case in 0..300 {
        let random = &mut Random::for_case(53, case);
        let query = queries::query(random, &Extent::full());
        let names = texts::names(random, &query);
        assert_eq!(draft(&print(&query.clone().into(), &names)), Ok(Draft::of(&query)));
    }
}

/// The bare text with one statement replaced.
fn fault(statement: &str, replacement: &str) -> String {
    assert!(BARE.contains(statement), "{statement}");
    told(&draft(&BARE.replacen(statement, replacement, 1)).expect_err("a fault"))
}

#[test]
fn faults_tell_their_place() {
    let said = "1:12: a query has at most 8 sites\n";
    assert_eq!(fault("sites 0 to 1", "sites 0 to 8"), said);
    assert_eq!(fault("sites 0 to 1", "sites 1 to 2"), "1:7: site 0 comes next, not '1'\n");
    let said = "1:11: expected 'join' or 'not', found the end of the statement\n";
    assert_eq!(fault("sites 0 to 1", "site 0 may"), said);
    let said = "2:16: a query has at most 9 relations\n";
    assert_eq!(fault("relations 0 to 2", "relations 0 to 9"), said);
    let said = "2:16: expected a number beside 'to', found 'x'\n";
    assert_eq!(fault("relations 0 to 2", "relations 0 to x"), said);
    assert_eq!(fault("0 to 2", "1 to 2"), "2:11: relation 0 comes next, not '1'\n");
    let twice = "relations 0 to 2\nrelations 3 to 2";
    let said = fault("relations 0 to 2", twice);
    assert_eq!(said, "3:16: the last relation comes before the first\n");
    let said = fault("relations 0 to 2", "relations 0 to 2 at site 0");
    assert!(said.starts_with("2:18: expected the end of the statement "), "{said}");
    assert_eq!(fault("2 and 1", "2 and 9"), "4:20: no relation 9; the relations are 0 to 2\n");
    assert_eq!(fault("join 1", "join 2"), "4:6: join 1 comes next, not '2'\n");
}

/// The number of joins and what they reach are told by the names.
#[test]
fn joins_that_make_no_tree_are_refused() {
    let said = "3:1: no join reaches relation 2 from relation 0; 3 relations need 2 joins, not 1\n";
    assert_eq!(fault("join 1 links 2 and 1\n", ""), said);
    let said = "5:14: join 2 links relation 0 and relation 2, which are connected already\n";
    assert_eq!(fault("2 and 1\n", "2 and 1\njoin 2 links 0 and 2\n"), said);
    assert_eq!(fault("2 and 1", "2 and 2"), "4:20: join 1 links relation 2 with itself\n");
    let said = "4:14: join 1 links relation 1 and relation 0, which are connected already\n";
    assert_eq!(fault("2 and 1", "1 and 0"), said);
}

#[test]
fn more_joins_than_any_query_has_tell_their_place() {
    let joins: String =
        (0..9).map(|join| format!("join {join} links 0 and {}\n", join + 1)).collect();
    let said = told(&draft(&format!("site 0\nrelations 0 to 8\n{joins}")).expect_err("a fault"));
    let relation = "11:20: no relation 9; the relations are 0 to 8\n";
    assert_eq!(said, format!("11:6: a query has at most 8 joins\n{relation}"));
}

#[test]
fn a_draft_has_sites_and_relations() {
    let site = "no site; expected 'site NAME may join, fixed F, rate R'\n";
    let relation = "no relation; expected 'relation NAME at SITE'\n";
    assert_eq!(fault("sites 0 to 1\n", ""), format!("3:21: {site}"));
    assert_eq!(fault("relations 0 to 2\n", ""), format!("3:21: {relation}"));
    assert_eq!(told(&draft("").expect_err("a fault")), format!("1:1: {site}1:1: {relation}"));
}

/// What is told of a draft where a query is wanted.
fn missing(text: &str) -> String {
    told(&parse(text).expect_err("a fault"))
}

#[test]
fn a_draft_is_no_query() {
    let site = "1:13: expected 'may join' or 'may not join', which only a draft leaves out\n";
    let home = "expected 'at' and the home, which only a draft leaves out\n";
    let delivery = "no delivery; expected 'delivery to' and a site\n";
    let lines = "no lines 0 to 1 and 1 to 0; expected 'line A to B ..' or 'every line ..'\n";
    let sizes = "no sizes of '0', '1', '0 1', '2', '1 2' and 1 more; expected 'size of .. is N' \
                 for each connected set, or rows and divisors\n";
    let all = format!("{site}2:17: {home}4:21: {delivery}4:21: {lines}4:21: {sizes}");
    assert_eq!(missing(BARE), all);
    let with_amounts = BARE.replace("sites 0 to 1", "sites 0 to 1 may join, fixed 1, rate 1");
    let lined = [&with_amounts, "every line open, fixed 1, rate 1\n"].concat();
    let homes = "relation 0 at site 0\nrelation 1 at site 0\n\nrelation 2";
    let all_but_one = lined.replace("relations 0 to 2", homes);
    let rest = format!("8:33: {delivery}8:33: {sizes}");
    assert_eq!(missing(&all_but_one), format!("5:11: {home}{rest}"));
    let with_homes = all_but_one.replace("relation 2", "relation 2 at site 1");
    assert_eq!(missing(&with_homes), rest);
    let delivered = with_homes + "delivery to site 0\n";
    assert_eq!(missing(&delivered), format!("9:19: {sizes}"));
}

#[test]
fn the_example() {
    let text = fs::read_to_string(common::example("draft.txt")).unwrap();
    let star = Draft { relations: 4, sites: 3, joins: vec![0, 1, 1, 2, 3, 1] };
    assert_eq!(room(&star), Ok(Figures { subqueries: 11, cells: 33, trials: 36 }));
    assert_eq!(draft(&text), Ok(star));
}
