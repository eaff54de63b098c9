//! The files that a run tries: a fixed sweep of damages first, then random ones.

use crate::encode;
use crate::generate::damage;
use crate::generate::files;
use crate::generate::queries::{self, Extent};
use crate::pinned;
use crate::pinned_indexes;
use crate::pinned_routes;
use crate::pinned_rows;
use crate::pinned_solves;
use crate::query::Query;
use crate::random::Random;
use crate::stated::{Form, Stated};

/// The pinned queries, and their sweeps: every cut, every field wrong, every join
/// turned, odd files.
pub fn fixed() -> Vec<Vec<u8>> {
    let mut pinned: Vec<Query> = pinned::rows().into_iter().map(|(query, _)| query).collect();
    pinned.extend([pinned::chain_of_five(), pinned::bushy_four(), pinned::lower_site_at_a_tie()]);
    pinned.push(pinned::a_parcel_each());
    pinned.extend([pinned::uniform(pinned::star(9), 8), pinned::uniform(pinned::chain(9), 8)]);
    pinned.extend(pinned::PARCELS.map(|(size, _)| pinned::sent(size)));
    pinned.extend(pinned::PARCELS.map(|(size, _)| pinned::joined_and_sent(size)));
    let worked = pinned_indexes::worked().into_iter().chain(pinned_routes::worked());
    pinned.extend(worked.map(|worked| worked.query));
    pinned.push(pinned_solves::longest_plan());

    let mut cases: Vec<Vec<u8>> = pinned.iter().map(encode::encode).collect();
    cases.extend(sweep(&pinned::q().into()));
    cases.extend(sweep(&pinned::alone().into()));
    cases.extend(files::odd_files(&pinned::q().into()));
    let longest = pinned::uniform(pinned::star(9), 8).into();
    cases.extend(files::every_cut(&longest));
    let trailing =
        [1, 2, 1_000].map(|more| [encode::encode_stated(&longest), vec![0; more]].concat());
    cases.extend(trailing);
    // Files for load from rows, which nothing else takes.
    cases.extend(pinned_rows::worked().iter().map(|worked| encode::encode_stated(&worked.stated)));
    cases
}

/// All single damages of one query's file.
pub fn sweep(stated: &Stated) -> Vec<Vec<u8>> {
    let mut cases: Vec<Vec<u8>> = files::every_cut(stated).collect();
    cases.extend(files::every_field_wrong(stated));
    cases.extend(files::every_join_turned(stated));
    cases
}

/// The sweep of a random query.
pub fn random_sweep(seed: u64, case: u64) -> Vec<Vec<u8>> {
    let mut random = Random::for_case(seed, case);
    sweep(&queries::query(&mut random, &Extent::full()).into())
}

/// One random ordinary file, whole or damaged; half are small enough to search.
pub fn random_file(seed: u64, case: u64) -> Vec<u8> {
    let mut random = Random::for_case(seed, case);
    let extent = match random.below(10) {
        0..=2 => Extent::small(),
        3 | 4 => Extent::wide(),
        _ => Extent::full(),
    };
    damage::file(&mut random, &extent, Form::Sizes)
}
