//! Sites and relations by their names.

mod common;

use common::texts::{taken, NAMED};

/// A site or a relation with a name can be called by its number, and 'site' may be left out.
#[test]
fn names_and_numbers_call_the_same() {
    let named = taken(NAMED);
    let names = |all: [&str; 3]| all.map(|name| Some(name.to_string())).to_vec();
    assert_eq!(named.names.sites, names(["north", "south", "west"]));
    assert_eq!(named.names.relations, names(["orders", "customers", "items"]));
    let numbers = ["orders customers items is", "orders and items", "at north", "at south"];
    let turned = ["1 items 0 is", "0 and 2", "at 0", "at site south"];
    let mut text = NAMED.replace("delivery to north", "delivery to site 0");
    for (from, to) in numbers.into_iter().zip(turned) {
        assert!(text.contains(from), "{from}");
        text = text.replace(from, to);
    }
    assert_eq!(taken(&text), named);
    for to in ["delivery to 0", "delivery to site north"] {
        assert_eq!(taken(&NAMED.replace("delivery to north", to)), named);
    }
    let numbered = NAMED.replace("site south", "site 1").replace("at south", "at 1");
    assert_eq!(taken(&numbered).stated, named.stated);
    assert_eq!(taken(&numbered).names.sites[1], None);
}

#[test]
fn a_list_declares_several() {
    let alike =
        ["north", "south", "west"].map(|name| format!("site {name} may join, fixed 2, rate 1\n"));
    let rest: String = NAMED.lines().skip(3).map(|line| format!("{line}\n")).collect();
    let list = format!("sites north, south west may join, fixed 2, rate 1\n{rest}");
    assert_eq!(taken(&list), taken(&format!("{}{rest}", alike.concat())));
    let many = list.replace("south west", "many my").replace("at south", "at many");
    assert_eq!(taken(&many.replace("at west", "at my")).stated, taken(&list).stated);
    let mixed = list.replace("north, south west", "north 1 west").replace("at south", "at 1");
    assert_eq!(taken(&mixed).stated, taken(&list).stated);
}
