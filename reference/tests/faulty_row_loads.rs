//! Loads from rows that refuse, admit or leave what they should not, in one way each; the
//! comparison of call lists stops at every one of them.

use std::io;

use reference::answers;
use reference::compare::calls;
use reference::compare::program::{Answering, Feed};
use reference::decode::decode;
use reference::encode::encode;
use reference::limits::{MOST_DIVISOR, MOST_ROWS, MOST_SIZE};
use reference::method::Method;
use reference::planner::{Loaded, Planner};
use reference::refusal::Refusal;
use reference::rows::RowCounts;
use reference::script::Call;
use reference::sets;
use reference::stated::Form;

type Answer = Result<Loaded, Refusal>;

/// What stands in for the planner's load from rows.
type Load = fn(&mut Planner, &[u8]) -> Answer;

const FAULTS: [(&str, Load); 14] = [
    ("rows of 0 admitted", |planner, file| {
        admitting(planner, file, Section::Rows, |rows| rows == 0)
    }),
    ("rows above the limit admitted", |planner, file| {
        admitting(planner, file, Section::Rows, |rows| rows > MOST_ROWS)
    }),
    ("a divisor of 0 taken for 1", |planner, file| {
        admitting(planner, file, Section::Divisors, |divisor| divisor == 0)
    }),
    ("a divisor above the limit admitted", |planner, file| {
        admitting(planner, file, Section::Divisors, |divisor| divisor > MOST_DIVISOR)
    }),
    ("a size at the limit refused", |planner, file| {
        let sizes = decode(file, Form::Rows)?.query.sizes;
        match sizes.iter().any(|size| size.0 == MOST_SIZE) {
            true => Err(Refusal::OutOfRange),
            false => planner.load(file, Form::Rows),
        }
    }),
    ("4 judged after the count of Rows", |planner, file| match planner.load(file, Form::Rows) {
        Err(Refusal::NotReached) => match file.get(rows_at(file)) {
            None => Err(Refusal::Cut),
            Some(&count) if usize::from(count) != relations(file) => Err(Refusal::WrongCount),
            Some(_) => Err(Refusal::NotReached),
        },
        answer => answer,
    }),
    ("no Divisors where there is no join", |planner, file| {
        let mut file = file.to_vec();
        let divisors_at = rows_at(&file) + 5;
        if relations(&file) == 1 && divisors_at <= file.len() {
            file.insert(divisors_at, 0);
        }
        planner.load(&file, Form::Rows)
    }),
    ("as many divisors as relations", |planner, file| {
        let divisors_at = rows_at(file) + 1 + 4 * relations(file);
        match (planner.clone().load(file, Form::Rows), file.get(divisors_at)) {
            (Ok(_), Some(&count)) if usize::from(count) != relations(file) => {
                Err(Refusal::WrongCount)
            }
            _ => planner.load(file, Form::Rows),
        }
    }),
    ("bytes behind Delivery passed over", |planner, file| {
        let length = whole(file).unwrap_or(file.len());
        planner.load(&file[..length], Form::Rows)
    }),
    ("a file with sizes admitted too", |planner, file| {
        let answer = planner.load(file, Form::Rows);
        answer.or_else(|refusal| planner.load(file, Form::Sizes).map_err(|_| refusal))
    }),
    ("every set of relations counted", |planner, file| {
        let Loaded { relations, .. } = planner.load(file, Form::Rows)?;
        Ok(Loaded { relations, subqueries: usize::from(sets::everything(relations)) })
    }),
    ("a refused load drops the query", |planner, file| {
        let answer = planner.load(file, Form::Rows);
        if answer.is_err() {
            *planner = Planner::empty(Method::Rules);
        }
        answer
    }),
    ("the query before stays", |planner, file| planner.clone().load(file, Form::Rows)),
    ("always refused", |_, _| Err(Refusal::Cut)),
];

enum Section {
    Rows,
    Divisors,
}

/// How many relations the file says that it has, as far as it goes.
fn relations(file: &[u8]) -> usize {
    let sites = file.first().map_or(0, |&sites| usize::from(sites));
    file.get(1 + 9 * sites).map_or(0, |&relations| usize::from(relations))
}

/// Where the count of Rows stands.
fn rows_at(file: &[u8]) -> usize {
    let sites = file.first().map_or(0, |&sites| usize::from(sites));
    1 + 9 * sites + 1 + 2 * relations(file) + 1 + 2 * relations(file).saturating_sub(1)
}

/// How long the file is without the bytes behind Delivery, if such bytes are its only fault.
fn whole(file: &[u8]) -> Option<usize> {
    match decode(file, Form::Rows) {
        Err(Refusal::BytesFollow) => {
            (0..file.len()).find(|&length| decode(&file[..length], Form::Rows).is_ok())
        }
        _ => None,
    }
}

/// Takes the values of the section that `wrongly` names as they are, but a divisor of 0 for 1.
fn admitting(
    planner: &mut Planner,
    file: &[u8],
    section: Section,
    wrongly: fn(u64) -> bool,
) -> Answer {
    let rows = relations(file);
    let (at, count) = match section {
        Section::Rows => (rows_at(file) + 1, rows),
        Section::Divisors => (rows_at(file) + 1 + 4 * rows + 1, rows.saturating_sub(1)),
    };
    let mut patched = file.to_vec();
    let mut values = Vec::new();
    for place in (0..count).map(|number| at + 4 * number) {
        let Some(field) = patched.get_mut(place..place + 4) else { break };
        let value = field.iter().rev().fold(0, |value, &byte| value << 8 | u64::from(byte));
        values.push(value);
        if wrongly(value) {
            field.copy_from_slice(&[1, 0, 0, 0]);
        }
    }
    let mut stated = decode(&patched, Form::Rows)?;
    let RowCounts { mut rows, mut divisors } = stated.counts.expect("it has rows");
    match section {
        Section::Rows => rows = values,
        Section::Divisors => divisors = values.iter().map(|&value| value.max(1)).collect(),
    }
    stated.query.sizes = RowCounts { rows, divisors }.sizes(stated.query.joins());
    planner.load(&encode(&stated.query), Form::Sizes)
}

/// The model with another load from rows.
struct With(Load);

impl Answering for With {
    fn run(&self, mut script: &[u8], _: Feed) -> io::Result<String> {
        let With(load) = self;
        let mut planner = Planner::empty(Method::Rules);
        let mut text = String::new();
        while let Some(call) = Call::next(&mut script) {
            let lines = match call {
                Call::Load { form: Form::Rows, file } => {
                    vec![answers::load_line(load(&mut planner, &file))]
                }
                _ => call.run(&mut planner),
            };
            text.extend(lines.into_iter().map(|line| line + "\n"));
        }
        Ok(text)
    }
}

#[test]
fn the_right_load_passes() {
    let right: Load = |planner, file| planner.load(file, Form::Rows);
    assert!(calls::compare(&With(right), 65, 20).unwrap().is_ok());
}

#[test]
fn every_fault_is_found() {
    for (fault, load) in FAULTS {
        let compared = calls::compare(&With(load), calls::DEFAULT_SEED, calls::DEFAULT_LISTS);
        let Err(mismatch) = compared.unwrap() else {
            panic!("{fault} is not found");
        };
        println!("== {fault}\n{mismatch}");
        assert!(mismatch.calls.len() <= 3, "{fault}: {mismatch}");
    }
}
