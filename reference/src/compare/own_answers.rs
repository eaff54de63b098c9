//! Solve held to its own answers: from the need on, the number of cells that are lent changes
//! nothing. The queries have few distinct prices, so that many plans cost the same, and which
//! of them is written must not change either.

use crate::answers;
use crate::compare::by_itself;
use crate::compare::calls_mismatch::Compared;
use crate::compare::program::Answering;
use crate::compare::tally::Tally;
use crate::generate::queries::{self, Extent};
use crate::limits::LONGEST_PLAN;
use crate::method::Method;
use crate::pinned_calls::{load, solve};
use crate::planner::Planner;
use crate::query::Query;
use crate::random::Random;
use crate::script::Call;

/// Queries in a run.
pub const QUERIES: u64 = 3_000;

/// How the tally names what was held.
pub const HELD: &str = "solve, held to itself with 4,096 cells and others";

/// A query, and with how many cells it is solved.
struct Case {
    query: Query,
    cells: [u32; 4],
}

impl Case {
    fn new(random: &mut Random) -> Case {
        let query = queries::tied(random, &Extent::full());
        let need = query.cells_needed() as u32;
        let any = random.between(need.into(), answers::MOST_CELLS_LENT.into()) as u32;
        Case { query, cells: [need, 4_096, any, answers::MOST_CELLS_LENT] }
    }
}

impl by_itself::Case for Case {
    fn calls(&self) -> Vec<Call> {
        let solves = self.cells.map(|cells| solve(cells, LONGEST_PLAN as u32));
        [&[load(&self.query)], &solves[..]].concat()
    }

    fn fault(&self, found: &[&str]) -> Option<String> {
        let [_, at_need, others @ ..] = found else {
            return Some("a line of load and of each solve".to_string());
        };
        if others != [*at_need; 3] {
            return Some(format!("{at_need}, however many cells are lent"));
        }
        let [load, solve, ..] = &self.calls()[..] else { unreachable!() };
        let mut planner = Planner::empty(Method::Rules);
        load.run(&mut planner);
        let by_model = solve.run(&mut planner).swap_remove(0);
        (*at_need != by_model).then(|| format!("{by_model}, by the model"))
    }

    fn held(&self) -> String {
        HELD.to_string()
    }
}

pub fn compare(program: &impl Answering, seed: u64, tally: &mut Tally) -> Compared {
    let cases = (0..QUERIES).map(|case| Case::new(&mut Random::for_case(seed, case)));
    by_itself::compare(program, cases, tally)
}
