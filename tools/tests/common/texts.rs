//! Texts and names for the tests of the text form.

use fanchuki::text::{self, is_name, Fault};
use reference::generate::queries::Extent;
use reference::generate::rows;
use reference::names::Names;
use reference::pinned;
use reference::query::Query;
use reference::random::Random;
use reference::stated::{Form, Stated};
use reference::text::print;

/// Q of docs/RULES.md.
pub fn q() -> String {
    print(&pinned::q().into(), &Names::default())
}

/// Three relations at three sites, all by names.
pub const NAMED: &str = "\
site north may join, fixed 2, rate 1
site south may not join, fixed 0, rate 0
site west may join, fixed 3, rate 2
relation orders at north, indexed
relation customers at south
relation items at west
join 0 links orders and customers
join 1 links orders and items
size of orders is 10
size of customers is 4
size of items is 7
size of orders customers is 3
size of orders items is 5
size of orders customers items is 2
every line open, fixed 1, rate 1
delivery to north
";

/// The same by rows and divisors.
pub fn by_rows() -> String {
    let told = "rows of orders are 10\nrows of customers are 4\nrows of items are 7\n\
                divisor of join 0 is 14\ndivisor of join 1 is 20\n";
    let size = |line: &&str| !line.starts_with("size");
    NAMED.lines().filter(size).map(|line| format!("{line}\n")).collect::<String>() + told
}

/// What the text states, which has no fault.
pub fn taken(text: &str) -> text::Named {
    text::parse(text).unwrap_or_else(|faults| panic!("{text}{}", told(&faults)))
}

/// The faults, a line each.
pub fn told(faults: &[Fault]) -> String {
    faults.iter().map(|fault| format!("{fault}\n")).collect()
}

/// A random query of that form, and names for it.
pub fn random_query(random: &mut Random, extent: &Extent, form: Form) -> (Stated, Names) {
    let stated = rows::stated(random, extent, form);
    let names = names(random, &stated.query);
    (stated, names)
}

/// Names for some sites and relations of the query, or for all.
pub fn names(random: &mut Random, query: &Query) -> Names {
    let mut given: Vec<String> = Vec::new();
    let mut some = |random: &mut Random, count: usize| {
        let chance = random.pick(&[0, 30, 80, 100]);
        let names = (0..count).map(|_| random.percent(chance).then(|| new(random, &mut given)));
        let names: Vec<Option<String>> = names.collect();
        if names.iter().all(Option::is_none) {
            Vec::new()
        } else {
            names
        }
    };
    let sites = some(random, query.sites.len());
    Names { relations: some(random, query.relations.len()), sites }
}

fn new(random: &mut Random, given: &mut Vec<String>) -> String {
    let letters: Vec<char> = "abcdefgxyzABCÄßéжλ中".chars().collect();
    let others: Vec<char> = letters.iter().copied().chain("0123456789_-.".chars()).collect();
    loop {
        let most = random.pick(&[1, 2, 5, 12, 64]);
        let length = random.below(most);
        let mut name = random.pick(&letters).to_string();
        name.extend((0..length).map(|_| random.pick(&others)));
        if random.percent(10) {
            name = random.pick(&["Site", "to-", "is.", "lines", "joins", "at_", "a", "x0"]).into();
        }
        if is_name(&name) && !given.contains(&name) {
            given.push(name.clone());
            return name;
        }
    }
}
