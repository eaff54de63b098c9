//! The proved program `calls`, asked by a test itself.

use std::env;

use fanchuki::given::Given;
use fanchuki::proved::calls::Calls;
use fanchuki::proved::loaded::Loaded;
use reference::encode;
use reference::generate::queries::{self, Extent};
use reference::generate::rows;
use reference::names::Names;
use reference::pinned;
use reference::random::Random;
use reference::stated::{Form, Stated};

use super::{root, stored};

pub fn start() -> Calls {
    find_programs();
    Calls::start().expect("the proved program is built")
}

fn find_programs() {
    if env::var_os("FANCHUKI_PROGRAMS").is_none() {
        env::set_var("FANCHUKI_PROGRAMS", root().join("target/bin"));
    }
}

/// The program with Q in force, for all queries of a test.
pub fn running() -> Loaded {
    find_programs();
    let q = Given::packed(encode::encode(&pinned::q()), Form::Sizes);
    Loaded::load(q).expect("Q is loaded")
}

/// In force from now on.
pub fn put(loaded: &mut Loaded, stated: Stated) {
    let file = encode::encode_stated(&stated);
    let answer = loaded.calls.load(&file, stated.form()).expect("an answer").expect("a load");
    loaded.query = stated.query;
    loaded.subqueries = answer.subqueries as u64;
}

/// A query of all shapes and both forms, a quarter of them with many ties.
pub fn random(seed: u64, case: u64) -> Stated {
    let mut random = Random::for_case(seed, case);
    match case % 4 {
        0 => rows::stated(&mut random, &Extent::full(), Form::Rows),
        1 => queries::tied(&mut random, &Extent::full()).into(),
        _ => queries::query(&mut random, &Extent::full()).into(),
    }
}

/// A query of four tables in force, by these names.
pub fn four_tables(relations: [&str; 4], sites: [&str; 3]) -> Loaded {
    find_programs();
    let text = stored("four-tables.txt");
    let mut given = Given::read(text.as_ref(), false).expect("the text is right");
    given.names = names(&sites, &relations);
    Loaded::load(given).expect("the query is loaded")
}

/// These, from number 0.
pub fn names(sites: &[&str], relations: &[&str]) -> Names {
    let all = |names: &[&str]| names.iter().map(|name| Some(name.to_string())).collect();
    Names { sites: all(sites), relations: all(relations) }
}
