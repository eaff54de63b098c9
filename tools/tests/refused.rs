//! Why a packed file is refused: the words name the field, and the number is that of the proved
//! load.

mod common;

use common::proved;
use common::{example, held_to, run, run_on};
use fanchuki::given::Given;
use fanchuki::proved::calls::Calls;
use reference::encode::{self, Meaning};
use reference::generate::queries::Extent;
use reference::generate::{damage, files, rows};
use reference::limits::{MOST_RELATIONS, MOST_SITES};
use reference::pinned;
use reference::pinned_rows;
use reference::random::Random;
use reference::stated::{Form, Stated};

/// What is said of the file, once the proved load was asked for the number.
fn words(calls: &mut Calls, file: &[u8], form: Form) -> Option<String> {
    let proved = calls.load(file, form).expect("an answer").map_err(|refused| refused.number);
    match (Given::packed(file.to_vec(), form).stated, proved) {
        (Ok(_), Ok(_)) => None,
        (Err(words), Err(number)) => {
            assert_eq!(words.number, number, "{words}: {file:?}");
            let words = words.to_string();
            assert!(words.starts_with(&format!("refused {number}: ")), "{words}");
            assert!(words.contains(", offset "), "{words}");
            assert!(!words.contains("the tool"), "{words}");
            Some(words)
        }
        (tool, proved) => panic!("{tool:?}, {proved:?}: {file:?}"),
    }
}

/// Of both forms, from one relation at one site to the most of both.
fn some_queries() -> Vec<Stated> {
    let mut queries = vec![pinned::q().into(), pinned_rows::q(), pinned::chain_of_five().into()];
    let extents = [(1, 1), (1, 3), (4, 2), (5, 1), (9, 8)];
    for (case, (relations, sites)) in extents.into_iter().enumerate() {
        let extent = Extent { relations: relations..=relations, sites: sites..=sites };
        for form in Form::ALL {
            queries.push(rows::stated(&mut Random::for_case(71, case as u64), &extent, form));
        }
    }
    queries
}

#[test]
fn every_field_made_wrong_is_named() {
    let mut calls = proved::start();
    for stated in some_queries() {
        let (file, fields) = encode::encode_with_fields(&stated);
        for (place, field) in fields.iter().enumerate() {
            for value in files::wrong_values(&file, field) {
                let mut wrong = file.clone();
                field.write(&mut wrong, value);
                let said = words(&mut calls, &wrong, stated.form());
                let at = format!(", offset {}, value {value}: must be ", field.offset);
                // Another number of sites or relations moves all fields behind it.
                let moves = match place {
                    0 => (1..=MOST_SITES as u64).contains(&value),
                    _ if field.offset == 1 + 9 * stated.query.sites.len() => {
                        (1..=MOST_RELATIONS as u64).contains(&value)
                    }
                    _ => false,
                };
                let said = said.expect("a wrong field is refused");
                let number = if field.meaning == Meaning::Count { 2 } else { 3 };
                assert!(moves || said.contains(&at), "{said}, not{at}");
                assert!(moves || said.starts_with(&format!("refused {number}: ")), "{said}");
            }
        }
    }
}

#[test]
fn every_cut_names_the_field_that_is_cut() {
    let mut calls = proved::start();
    for stated in some_queries() {
        let (_, fields) = encode::encode_with_fields(&stated);
        for file in files::every_cut(&stated) {
            let cut = fields.iter().find(|field| field.offset + field.width > file.len());
            let cut = cut.expect("the file ends within a field");
            let bytes = if cut.width == 1 { "byte" } else { "bytes" };
            let there = file.len() - cut.offset;
            let at =
                format!(", offset {}: {} {bytes} needed, {there} there", cut.offset, cut.width);
            let said = words(&mut calls, &file, stated.form()).expect("a cut file is refused");
            assert!(said.starts_with("refused 1: ") && said.contains(&at), "{said}, not{at}");
        }
    }
}

#[test]
fn joins_that_do_not_reach_and_odd_files() {
    let mut calls = proved::start();
    let mut not_reached = 0;
    for stated in some_queries() {
        for file in files::every_join_turned(&stated) {
            let said = words(&mut calls, &file, stated.form());
            let joins_at = 2 + 9 * stated.query.sites.len() + 2 * stated.query.relations.len() + 1;
            let at =
                format!("refused 4: Joins, offset {joins_at}: the joins do not reach relation ");
            not_reached += usize::from(said.is_some_and(|said| said.starts_with(&at)));
        }
        for file in files::odd_files(&stated) {
            assert!(words(&mut calls, &file, stated.form()).is_some());
        }
    }
    assert!(not_reached > 100, "{not_reached}");
}

#[test]
fn thousands_of_damaged_files() {
    let mut calls = proved::start();
    let mut met = [0; 6];
    for case in 0..6_000 {
        let mut random = Random::for_case(72, case);
        let form = random.pick(&Form::ALL);
        let extent = random.pick(&[false, true]);
        let extent = if extent { Extent::full() } else { Extent::small() };
        let file = damage::file(&mut random, &extent, form);
        let said = words(&mut calls, &file, form);
        let number = said.map_or(0, |said| usize::from(said.as_bytes()[8] - b'0'));
        met[number] += 1;
    }
    assert!(met.iter().all(|&count| count > 20), "{met:?}");
}

/// A run's output on Q's file, changed.
fn unpacked(change: impl FnOnce(&mut Vec<u8>)) -> String {
    let mut file = encode::encode(&pinned::q());
    change(&mut file);
    let run = run_on(&["unpack", "-"], &file);
    assert_eq!((run.code, run.printed.len()), (1, 0));
    run.said
}

#[test]
fn what_the_tool_says_is_stored() {
    let said = [
        unpacked(|file| file.truncate(0)),
        unpacked(|file| file.truncate(30)),
        unpacked(|file| file.truncate(44)),
        unpacked(|file| file[0] = 9),
        unpacked(|file| file[1] = 2),
        unpacked(|file| file[4] = 255),
        unpacked(|file| file[28] = 1),
        unpacked(|file| file[31] = 7),
        unpacked(|file| file[33] = 2),
        unpacked(|file| file[34] = 1),
        unpacked(|file| file[36] = 4),
        unpacked(|file| file[49] = 255),
        unpacked(|file| file[50] = 7),
        unpacked(|file| file[51] = 2),
        unpacked(|file| file[106] = 3),
        unpacked(|file| file.push(0)),
        unpacked(|file| file.extend([1; 70_000])),
    ];
    held_to("refused-q.txt", &said.concat());
}

#[test]
fn the_other_form_is_named_where_it_is_right() {
    let said = run(&["unpack", &example("chain-from-rows.rows")]);
    assert_eq!(said.code, 1);
    assert!(
        said.said.ends_with("\nas a file with row counts it is right: --rows\n"),
        "{}",
        said.said
    );
    let said = run(&["unpack", "--rows", &example("q.query")]);
    assert_eq!(said.code, 1);
    assert!(said.said.ends_with("\nas a file with sizes it is right: without --rows\n"));
}

/// Other subcommands tell the same words, by the proved program's number.
#[test]
fn every_subcommand_tells_the_same() {
    let mut file = encode::encode(&pinned::q());
    file[31] = 7;
    let said = run_on(&["unpack", "-"], &file).said;
    for words in [&["sizes", "-"][..], &["whatif", "-", "--line", "0", "1"], &["plan", "-"]] {
        let run = run_on(words, &file);
        assert_eq!((run.code, run.said), (1, said.clone()), "{words:?}");
    }
}
