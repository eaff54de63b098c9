//! Fixed lists of calls for load from rows: sizes that were worked out by hand, every damage
//! of a file, files for the other load, and what may stand before and after it.

use crate::compare::cases;
use crate::encode::{encode, encode_stated};
use crate::generate::files;
use crate::pinned;
use crate::pinned_calls::{check, link, load, load_file, SOLVE};
use crate::pinned_rows::{self, worked};
use crate::script::Call;
use crate::stated::{Form, Stated};

pub fn lists() -> Vec<Vec<Call>> {
    vec![
        worked_by_hand(),
        nothing_loaded(),
        refusals_leave_the_query(),
        joins_that_do_not_reach(),
        for_the_other_load(),
        before_and_after(),
        damages(&pinned_rows::q()),
        damages(&pinned_rows::alone()),
        damages(&pinned_rows::chain_numbered_otherwise().stated),
    ]
}

pub fn load_from_rows(stated: &Stated) -> Call {
    rows_file(encode_stated(stated))
}

pub fn rows_file(file: Vec<u8>) -> Call {
    Call::Load { form: Form::Rows, file }
}

/// Each query from its rows and from the sizes that were worked out by hand.
pub fn worked_by_hand() -> Vec<Call> {
    let both = |worked: pinned_rows::Worked| {
        [load_from_rows(&worked.stated), SOLVE, load(&worked.by_hand()), SOLVE]
    };
    worked().into_iter().flat_map(both).collect()
}

/// A refused load from rows puts nothing in force.
pub fn nothing_loaded() -> Vec<Call> {
    let q = encode_stated(&pinned_rows::q());
    vec![
        rows_file(Vec::new()),
        SOLVE,
        rows_file([&q[..], &[0]].concat()),
        SOLVE,
        rows_file(encode(&pinned::q())),
        check(&[4, 1, 0, 1, 1, 2, 0, 3, 0]),
        rows_file(q),
        SOLVE,
    ]
}

/// Row 5 of docs/RULES.md, 10.3, stays in force, whether it came by sizes or by rows.
pub fn refusals_leave_the_query() -> Vec<Call> {
    let mut row_5 = pinned_rows::q();
    row_5.query.line_mut(1, 0).open = false;
    let q = encode_stated(&pinned_rows::q());
    let refused = [q[..106].to_vec(), encode(&pinned::q()), [q, vec![0]].concat()];
    let mut calls = Vec::new();
    for in_force in [load(&row_5.query), load_from_rows(&row_5)] {
        calls.extend([in_force, SOLVE]);
        calls.extend(refused.iter().flat_map(|file| [rows_file(file.clone()), SOLVE]));
    }
    calls
}

/// 4 is judged before the count of Rows: where that is wrong, where it is cut, and where a
/// row count is out of range.
pub fn joins_that_do_not_reach() -> Vec<Call> {
    let mut file = encode_stated(&pinned_rows::q());
    let rows_at = 36;
    files::turn_join(&mut file, &pinned::q(), 0, 1, 1);
    let with = |place: usize, byte: u8| {
        let mut other = file.clone();
        other[place] = byte;
        other
    };
    let cut = |length: usize| file[..length].to_vec();
    let files = [file.clone(), with(rows_at, 3), with(rows_at + 1, 0), cut(rows_at)];
    files.into_iter().chain([cut(rows_at - 1)]).map(rows_file).collect()
}

/// A file with sizes for load from rows, and one with rows for load.
fn for_the_other_load() -> Vec<Call> {
    let both = |worked: pinned_rows::Worked| {
        [rows_file(encode(&worked.stated.query)), load_file(encode_stated(&worked.stated))]
    };
    worked().into_iter().flat_map(both).collect()
}

/// Link, solve and check take the query from rows as any other; the load after it replaces
/// it with its lines, of either kind.
pub fn before_and_after() -> Vec<Call> {
    let best = [4, 1, 0, 1, 1, 2, 0, 3, 0];
    let (from_rows, ordinary) = (load_from_rows(&pinned_rows::q()), load(&pinned::q()));
    let mut calls = Vec::new();
    for loads in [[&ordinary, &from_rows], [&from_rows, &ordinary], [&from_rows, &from_rows]] {
        for load in loads {
            calls.extend([load.clone(), SOLVE, check(&best)]);
            calls.extend([link(1, 0, 0, 1, 1), SOLVE, check(&best)]);
        }
    }
    calls
}

/// All single damages of the file, and odd files.
fn damages(stated: &Stated) -> Vec<Call> {
    let files = cases::sweep(stated).into_iter().chain(files::odd_files(stated));
    let short = files.filter(|file| file.len() <= usize::from(u16::MAX));
    short.map(rows_file).chain([SOLVE]).collect()
}
