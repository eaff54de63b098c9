//! Room held to what the program itself answers for the whole query: its load counts the
//! subqueries, its solve the trials, and the cells are the fewest with which it solves. Every
//! tree of up to seven relations is tried, at all numbers of sites in turn; the model only
//! tells room's own line once more.

use crate::answers;
use crate::compare::by_itself;
use crate::compare::calls_mismatch::Compared;
use crate::compare::program::Answering;
use crate::compare::tally::Tally;
use crate::generate::queries;
use crate::generate::trees;
use crate::limits::{LONGEST_PLAN, MOST_SITES};
use crate::pinned;
use crate::pinned_calls::{load, solve};
use crate::query::Query;
use crate::random::Random;
use crate::room::{self, Draft};
use crate::script::Call;
use crate::tree::Join;

/// Trees of so many relations are all tried.
pub const MOST_RELATIONS: usize = 7;

/// A query, and the draft that it was before.
struct Case {
    /// Of what kind its tree is.
    shapes: &'static str,
    draft: Draft,
    query: Query,
}

impl Case {
    fn new(random: &mut Random, shapes: &'static str, joins: Vec<Join>, sites: usize) -> Case {
        let joins = trees::turned(random, joins);
        let query = queries::with_joins(random, joins, sites);
        Case { shapes, draft: Draft::of(&query), query }
    }

    /// What room must print beside these lines of a load and of a solve.
    fn by_load_and_solve(&self, load: &str, solve: &str) -> Option<String> {
        let counted = load.strip_prefix(&format!("load {} ", self.draft.relations))?;
        let subqueries: u64 = counted.parse().ok()?;
        let trials = match solve.split(' ').collect::<Vec<_>>()[..] {
            ["solved", _, _, trials, _] | ["no-route", trials] => trials,
            _ => return None,
        };
        Some(format!("room {subqueries} {} {trials}", self.query.cells_needed()))
    }
}

impl by_itself::Case for Case {
    /// The solves have a cell less than is needed, as many, and one more.
    fn calls(&self) -> Vec<Call> {
        let (need, output) = (self.query.cells_needed() as u32, LONGEST_PLAN as u32);
        let solves = [need - 1, need, need + 1].map(|cells| solve(cells, output));
        [&[Call::Room(self.draft.clone()), load(&self.query)], &solves[..]].concat()
    }

    fn fault(&self, found: &[&str]) -> Option<String> {
        let [room, load, less, just, more] = found else {
            return Some("a line of room, of load and of three solves".to_string());
        };
        if *less != "refused 21" {
            return Some("refused 21, with a cell less than is needed".to_string());
        }
        if more != just {
            return Some(format!("{just}, with a cell more than is needed"));
        }
        let by_itself = self.by_load_and_solve(load, just).unwrap_or("no line".to_string());
        if *room != by_itself {
            return Some(format!("{by_itself}, by its load and solve"));
        }
        let by_model = answers::room_line(room::room(&self.draft));
        (*room != by_model).then(|| format!("{by_model}, by the model"))
    }

    fn held(&self) -> String {
        held(self.shapes, self.draft.relations)
    }
}

/// How the tally names what was held.
pub fn held(shapes: &str, relations: u64) -> String {
    format!("room, held to load and solve: {shapes} of {relations}")
}

/// Every tree, then chains and stars of nine at every number of sites. Each has random
/// prices, with sites that may not join and closed lines among them.
pub fn compare(program: &impl Answering, seed: u64, tally: &mut Tally) -> Compared {
    let trees = (1..=MOST_RELATIONS).flat_map(trees::every).enumerate();
    let trees = trees.map(|(number, joins)| ("trees", joins, 1 + number % MOST_SITES));
    let longest = (1..=MOST_SITES).flat_map(|sites| {
        [pinned::chain(9), pinned::star(9)].map(|joins| ("chains and stars", joins, sites))
    });
    let random = &mut Random::new(seed);
    let case = |(shapes, joins, sites)| Case::new(random, shapes, joins, sites);
    by_itself::compare(program, trees.chain(longest).map(case), tally)
}
