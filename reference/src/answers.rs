//! The lines that the program `calls` prints, by the model, and the areas that it lends.

use crate::hex::hex;
use crate::method::Method;
use crate::planner::{Loaded, Planner, Solved};
use crate::query::Query;
use crate::refusal::Refusal;
use crate::room::{self, Figures};
use crate::script::Call;
use crate::units::Charge;

/// At most so many cells and output bytes are lent, whatever a record says.
pub const MOST_CELLS_LENT: u32 = 8_192;
pub const MOST_OUTPUT_LENT: u32 = 4_096;

/// The lines of a list of calls, from an empty planner on.
pub fn lines(calls: &[Call]) -> Vec<String> {
    let mut planner = Planner::empty(Method::Rules);
    calls.iter().flat_map(|call| call.run(&mut planner)).collect()
}

impl Call {
    /// The lines that the call prints.
    pub fn run(&self, planner: &mut Planner) -> Vec<String> {
        match self {
            Call::Load { form, file } => vec![load_line(planner.load(file, *form))],
            Call::Link(link) => vec![match planner.link(*link) {
                Ok(()) => "link".to_string(),
                Err(refusal) => refused(refusal),
            }],
            Call::Solve { cells, output } => solve_lines(planner, *cells, *output, Planner::solve),
            Call::Check { plan } => vec![check_line(planner.check(plan))],
            Call::Room(draft) => vec![room_line(room::room(draft))],
        }
    }
}

/// The line of a load of either kind.
pub fn load_line(answer: Result<Loaded, Refusal>) -> String {
    match answer {
        Ok(loaded) => format!("load {} {}", loaded.relations, loaded.subqueries),
        Err(refusal) => refused(refusal),
    }
}

pub fn check_line(answer: Result<Charge, Refusal>) -> String {
    match answer {
        Ok(cost) => format!("check {}", cost.0),
        Err(refusal) => refused(refusal),
    }
}

pub fn room_line(answer: Result<Figures, Refusal>) -> String {
    match answer {
        Ok(Figures { subqueries, cells, trials }) => format!("room {subqueries} {cells} {trials}"),
        Err(refusal) => refused(refusal),
    }
}

/// What stands in a lent work area before the call.
pub fn lent_cell(place: usize) -> u64 {
    (place as u64).wrapping_mul(2_654_435_761).wrapping_add(12_345)
}

/// What stands in a lent output before the call.
pub fn lent_byte(place: usize) -> u8 {
    ((place * 37 + 11) % 256) as u8
}

/// The lines of a solve, which is lent areas of these lengths: its answer, and what became
/// of the cells from the need on and of an output that no plan was written to.
pub fn solve_lines(
    planner: &Planner,
    cells: u32,
    output: u32,
    solve: impl FnOnce(&Planner, &mut [u64], &mut [u8]) -> Result<Solved, Refusal>,
) -> Vec<String> {
    let cells: Vec<u64> = (0..cells.min(MOST_CELLS_LENT) as usize).map(lent_cell).collect();
    let output: Vec<u8> = (0..output.min(MOST_OUTPUT_LENT) as usize).map(lent_byte).collect();
    let (mut work, mut written) = (cells.clone(), output.clone());
    let answer = solve(planner, &mut work, &mut written);
    let free = match answer {
        Err(Refusal::NothingLoaded | Refusal::FewCells) => 0,
        _ => planner.query().map_or(0, Query::cells_needed),
    };
    let cells_same = work.iter().skip(free).eq(cells.iter().skip(free));
    let cells_line = format!("cells {}", ok_or_changed(cells_same));
    let output_line = format!("output {}", ok_or_changed(written == output));
    match answer {
        Ok(Solved::Found { cost, length, trials }) => {
            let answer = format!("solved {} {length} {trials} {}", cost.0, hex(&written));
            vec![answer, cells_line]
        }
        Ok(Solved::NoRoute { trials }) => {
            vec![format!("no-route {trials}"), cells_line, output_line]
        }
        Err(refusal) => vec![refused(refusal), cells_line, output_line],
    }
}

fn refused(refusal: Refusal) -> String {
    match refusal.place() {
        Some(place) => format!("refused {} {place}", refusal.number()),
        None => format!("refused {}", refusal.number()),
    }
}

fn ok_or_changed(same: bool) -> &'static str {
    if same {
        "OK"
    } else {
        "CHANGED"
    }
}
