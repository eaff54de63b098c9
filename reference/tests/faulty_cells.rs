//! Solves that ask for other cells than they need, use others, or answer otherwise by how many
//! they are lent; the comparison of call lists stops at every one of them, and so do random
//! lists alone. Beside them stand solves that fill the cells they are lent, as a planner does,
//! in an order that is right or nearly right.

use std::io;

use reference::answers;
use reference::compare::program::{Answering, Feed};
use reference::compare::tally::Tally;
use reference::compare::{calls, own_answers, own_figures};
use reference::generate;
use reference::generate::queries::{self, Extent};
use reference::limits::{LONGEST_PLAN, MOST_CELLS};
use reference::method::Method;
use reference::pinned;
use reference::planner::{Planner, Solved};
use reference::prices::{self, Operand};
use reference::query::Query;
use reference::random::Random;
use reference::refusal::Refusal;
use reference::room;
use reference::routes::{self, Route};
use reference::script::Call;
use reference::sets::{self, Set};
use reference::solve;
use reference::step::{self, Step};
use reference::tree;
use reference::units::Charge;

type Answer = Result<Solved, Refusal>;

/// How many cells are asked for.
type Need = fn(&Query) -> usize;

/// What stands in for the planner's solve.
type Solve = fn(&Planner, &mut [u64], &mut [u8]) -> Answer;

/// Where the cell of a subquery and site stands, if it has one.
type Place = fn(&Query, Set, usize) -> usize;

const RIGHT_NEED: Need = Query::cells_needed;

const WRONG_NEEDS: [(&str, Need); 18] = [
    ("subqueries without s", |query| query.subqueries().len()),
    ("s alone", |query| query.sites.len()),
    ("a cell less", |query| query.cells_needed() - 1),
    ("a cell more", |query| query.cells_needed() + 1),
    ("no cell at all", |_| 0),
    ("the heaviest query's for every query", |_| MOST_CELLS),
    ("4,096 for every query", |_| 4_096),
    ("512 for each site", |query| 512 * query.sites.len()),
    ("eight for each subquery", |query| 8 * query.subqueries().len()),
    ("one for each relation and site", |query| query.relations.len() * query.sites.len()),
    ("one for each set of relations and site", |query| sets_of_relations(query) * sites(query)),
    ("one for each set that is not empty", |query| (sets_of_relations(query) - 1) * sites(query)),
    ("a star's for every tree", |query| {
        let n = query.relations.len();
        room::figures(&pinned::star(n), n, sites(query)).cells as usize
    }),
    ("a chain's for every tree", |query| {
        let n = query.relations.len();
        room::figures(&pinned::chain(n), n, sites(query)).cells as usize
    }),
    ("none for the whole query", |query| query.cells_needed() - sites(query)),
    ("none for single relations", |query| {
        query.cells_needed() - query.relations.len() * sites(query)
    }),
    ("none for sites that may not join", |query| {
        let joining = query.sites.iter().filter(|site| site.may_join).count();
        query.subqueries().len() * joining
    }),
    ("as many as there are trials", |query| solve::trials(query) as usize),
];

fn sites(query: &Query) -> usize {
    query.sites.len()
}

fn sets_of_relations(query: &Query) -> usize {
    1 << query.relations.len()
}

/// What is used beyond the need, or shows in the answer.
const WRONG_USES: [(&str, Solve); 10] = [
    ("the cell at the need written with a plan", |planner, work, output| {
        let answer = planner.solve(work, output);
        let found = matches!(answer, Ok(Solved::Found { .. }));
        at_need_written(found, planner, work);
        answer
    }),
    ("the cell at the need written with no route", |planner, work, output| {
        let answer = planner.solve(work, output);
        at_need_written(matches!(answer, Ok(Solved::NoRoute { .. })), planner, work);
        answer
    }),
    ("the cell at the need written with 23", |planner, work, output| {
        let answer = planner.solve(work, output);
        at_need_written(answer == Err(Refusal::ShortOutput), planner, work);
        answer
    }),
    ("all cells below 4,096 written", |planner, work, output| {
        let answer = planner.solve(work, output)?;
        work.iter_mut().take(4_096).for_each(|cell| *cell = 0);
        Ok(answer)
    }),
    ("the last cell written", |planner, work, output| {
        let answer = planner.solve(work, output)?;
        work[work.len() - 1] = 0;
        Ok(answer)
    }),
    ("all cells cleared before 21", |planner, work, output| {
        if planner.query().is_some() {
            work.fill(0);
        }
        planner.solve(work, output)
    }),
    ("another plan of the same cost with 4,096 cells", |planner, work, output| match work.len() {
        4_096.. => by(Method::HighestJoin, planner, work, output),
        _ => planner.solve(work, output),
    }),
    ("another plan of the same cost with just the need", |planner, work, output| {
        match work.len() > planner.query().map_or(0, Query::cells_needed) {
            false => by(Method::HighestSite, planner, work, output),
            true => planner.solve(work, output),
        }
    }),
    ("no route with fewer than 4,096 cells", |planner, work, output| {
        match planner.solve(work, &mut output.to_vec())? {
            Solved::Found { trials, .. } if work.len() < 4_096 => Ok(Solved::NoRoute { trials }),
            _ => planner.solve(work, output),
        }
    }),
    ("trials by the cells that are lent", |planner, work, output| {
        match planner.solve(work, output)? {
            Solved::Found { cost, length, trials } if work.len() >= 4_096 => {
                Ok(Solved::Found { cost, length, trials: trials + 1 })
            }
            answer => Ok(answer),
        }
    }),
];

fn at_need_written(written: bool, planner: &Planner, work: &mut [u64]) {
    let need = planner.query().map_or(0, Query::cells_needed);
    if written && need < work.len() {
        work[need] = 0;
    }
}

/// The solve of a planner that breaks ties otherwise.
fn by(method: Method, planner: &Planner, work: &mut [u64], output: &mut [u8]) -> Answer {
    let answer = planner.solve(work, output)?;
    let found = planner.query().and_then(|query| solve::solve(query, method));
    let plan = found.map(|found| step::plan_bytes(&found.steps));
    match (answer, plan) {
        (Solved::Found { cost, trials, .. }, Some(plan)) if plan.len() <= output.len() => {
            output[..plan.len()].copy_from_slice(&plan);
            Ok(Solved::Found { cost, length: plan.len(), trials })
        }
        _ => Ok(answer),
    }
}

/// Every cell has a place of its own, below the need.
const RIGHT_PLACES: [(&str, Place); 3] = [
    ("by subquery, then site", |query, set, site| sites(query) * below(query, set) + site),
    ("by site, then subquery", |query, set, site| {
        query.subqueries().len() * site + below(query, set)
    }),
    ("from the last down", |query, set, site| {
        query.cells_needed() - 1 - (sites(query) * below(query, set) + site)
    }),
];

const WRONG_PLACES: [(&str, Place); 7] = [
    ("by set and s, with holes", |query, set, site| sites(query) * usize::from(set) + site),
    ("by set and eight, with holes", |_, set, site| 8 * usize::from(set) + site),
    ("one place for two subqueries", |query, set, site| {
        sites(query) * (below(query, set) / 2) + site
    }),
    ("one place for two sites", |query, set, site| sites(query) * below(query, set) + site / 2),
    ("rows that overlap", |query, set, site| below(query, set) + site),
    ("a row too far", |query, set, site| sites(query) * (below(query, set) + 1) + site),
    ("the lowest subqueries alone counted", |query, set, site| {
        sites(query) * below(query, set).min(query.relations.len()) + site
    }),
];

/// How many subqueries have a lower number.
fn below(query: &Query, set: Set) -> usize {
    query.subqueries().partition_point(|&subquery| subquery < set)
}

/// None is the largest number, to which nothing is added.
const NONE: u64 = u64::MAX;

/// A solve that keeps Delivered in the cells that it is lent, and nowhere else.
struct InCells<'lent> {
    query: &'lent Query,
    place: Place,
    cells: &'lent mut [u64],
}

impl InCells<'_> {
    /// A cell beyond those that are lent is as good as empty.
    fn delivered(&self, set: Set, to: usize) -> u64 {
        self.cells.get((self.place)(self.query, set, to)).copied().unwrap_or(0)
    }

    fn keep(&mut self, set: Set, to: usize, figure: u64) {
        if let Some(cell) = self.cells.get_mut((self.place)(self.query, set, to)) {
            *cell = figure;
        }
    }

    fn fill(&mut self) {
        for &set in self.query.subqueries() {
            for (to, figure) in self.row(set).into_iter().enumerate() {
                self.keep(set, to, figure);
            }
        }
    }

    /// Delivered at each site, worked out from the cells of the parts: the result made there, or
    /// sent there from where it was delivered for less.
    fn row(&self, set: Set) -> Vec<u64> {
        let mut row: Vec<u64> = (0..sites(self.query)).map(|at| self.made(set, at)).collect();
        loop {
            let before = row.clone();
            for (sender, receiver) in Query::line_ends(sites(self.query)) {
                let sent = plus(row[sender], self.send(set, sender, receiver));
                row[receiver] = row[receiver].min(sent);
            }
            if row == before {
                return row;
            }
        }
    }

    /// What it costs to have the result before any send.
    fn made(&self, set: Set, at: usize) -> u64 {
        match sets::count(set) {
            1 if self.query.relations[sets::lowest(set)].home == at => 0,
            1 => NONE,
            _ => self.joined(set, at).0,
        }
    }

    /// The site where the result is made that is wanted at another, and its route.
    fn from(&self, set: Set, to: usize) -> (usize, Option<Route>) {
        let route = |at| routes::best(self.query, set, at, to);
        let cost = |&at: &usize| plus(self.made(set, at), route(at).map_or(NONE, |by| by.cost.0));
        let from = (0..sites(self.query)).min_by_key(cost).expect("a query has a site");
        (from, route(from))
    }

    /// Joined, and by which join.
    fn joined(&self, set: Set, at: usize) -> (u64, usize) {
        let joins = self.query.joins();
        let inside = (0..joins.len()).filter(|&join| joins[join].within(set));
        let by = |join| {
            let (first, other) = tree::parts(joins, set, join);
            let parts = plus(self.delivered(first, at), self.delivered(other, at));
            (plus(parts, self.price(set, first, other, at)), join)
        };
        inside.map(by).min().expect("two relations have a join")
    }

    fn price(&self, set: Set, first: Set, other: Set, at: usize) -> u64 {
        let operand = |part: Set| {
            let relation = self.query.relations[sets::lowest(part)];
            let qualifies = sets::count(part) == 1 && relation.index && relation.home == at;
            Operand { size: self.query.size(part), qualifies }
        };
        let site = &self.query.sites[at];
        let reads = prices::reads([first, other].map(operand));
        match site.may_join {
            true => prices::join(site, reads, self.query.size(set)).0,
            false => NONE,
        }
    }

    fn send(&self, set: Set, from: usize, to: usize) -> u64 {
        let line = self.query.line(from, to);
        if line.open {
            prices::send(line, self.query.size(set)).0
        } else {
            NONE
        }
    }

    fn write(&self, set: Set, to: usize, steps: &mut Vec<Step>) {
        let (from, route) = self.from(set, to);
        if sets::count(set) == 1 {
            steps.push(Step::Load { relation: sets::lowest(set) });
        } else {
            let (_, join) = self.joined(set, from);
            let (first, other) = tree::parts(self.query.joins(), set, join);
            self.write(first, from, steps);
            self.write(other, from, steps);
            steps.push(Step::Join { join });
        }
        let stops = route.iter().flat_map(Route::stops);
        steps.extend(stops.map(|to| Step::Send { to }));
    }
}

fn plus(one: u64, other: u64) -> u64 {
    one.saturating_add(other)
}

fn in_cells(place: Place, planner: &Planner, work: &mut [u64], output: &mut [u8]) -> Answer {
    let query = planner.query().ok_or(Refusal::NothingLoaded)?;
    if work.len() < query.cells_needed() {
        return Err(Refusal::FewCells);
    }
    let (all, to) = (sets::everything(query.relations.len()), query.delivery);
    let mut solver = InCells { query, place, cells: work };
    solver.fill();
    let trials = solve::trials(query);
    let cost = match solver.delivered(all, to) {
        NONE => return Ok(Solved::NoRoute { trials }),
        cost => Charge(cost),
    };
    let mut steps = Vec::new();
    solver.write(all, to, &mut steps);
    let plan = step::plan_bytes(&steps);
    let front = output.get_mut(..plan.len()).ok_or(Refusal::ShortOutput)?;
    front.copy_from_slice(&plan);
    Ok(Solved::Found { cost, length: plan.len(), trials })
}

/// The model with another solve.
#[derive(Clone, Copy)]
enum With {
    Need(Need),
    Use(Solve),
    Place(Place),
}

impl With {
    fn solve(self, planner: &Planner, work: &mut [u64], output: &mut [u8]) -> Answer {
        match self {
            With::Need(need) => match planner.query() {
                Some(query) if work.len() < need(query) => Err(Refusal::FewCells),
                _ => planner.solve(&mut [0; MOST_CELLS], output),
            },
            With::Use(solve) => solve(planner, work, output),
            With::Place(place) => in_cells(place, planner, work, output),
        }
    }
}

impl Answering for With {
    fn run(&self, mut script: &[u8], _: Feed) -> io::Result<String> {
        let mut planner = Planner::empty(Method::Rules);
        let mut text = String::new();
        while let Some(call) = Call::next(&mut script) {
            let lines = match call {
                Call::Solve { cells, output } => {
                    let by = |planner: &Planner, work: &mut [u64], output: &mut [u8]| {
                        self.solve(planner, work, output)
                    };
                    answers::solve_lines(&planner, cells, output, by)
                }
                _ => call.run(&mut planner),
            };
            text.extend(lines.into_iter().map(|line| line + "\n"));
        }
        Ok(text)
    }
}

fn faults() -> Vec<(&'static str, With)> {
    let needs = WRONG_NEEDS.map(|(fault, need)| (fault, With::Need(need)));
    let uses = WRONG_USES.map(|(fault, solve)| (fault, With::Use(solve)));
    let places = WRONG_PLACES.map(|(fault, place)| (fault, With::Place(place)));
    [&needs[..], &uses, &places].concat()
}

#[test]
fn the_right_need_passes() {
    assert!(calls::compare(&With::Need(RIGHT_NEED), 64, 20).unwrap().is_ok());
}

/// The cells that are needed are enough for a planner that has nothing else.
#[test]
fn a_planner_with_these_cells_alone_passes() {
    let (_, place) = RIGHT_PLACES[0];
    assert!(calls::compare(&With::Place(place), 65, 5).unwrap().is_ok());
}

/// Any order will do in which each cell has a place of its own.
#[test]
fn every_right_order_passes() {
    for (order, place) in RIGHT_PLACES {
        let compared = own_answers::compare(&With::Place(place), 66, &mut Tally::default());
        assert!(compared.unwrap().is_ok(), "{order}");
    }
}

#[test]
fn every_fault_is_found() {
    for (fault, with) in faults() {
        let compared = calls::compare(&with, calls::DEFAULT_SEED, calls::DEFAULT_LISTS);
        let Err(mismatch) = compared.unwrap() else {
            panic!("{fault} is not found");
        };
        println!("== {fault}\n{mismatch}");
        assert!(mismatch.calls.len() <= 4, "{fault}: {mismatch}");
    }
}

/// With no fixed list before them.
#[test]
fn every_fault_is_found_in_random_lists() {
    let script = |case| {
        let list = generate::calls::calls(&mut Random::for_case(69, case), 400);
        list.iter().flat_map(Call::record).collect()
    };
    let scripts: Vec<Vec<u8>> = (0..40).map(script).collect();
    let printed = |with: With, script: &[u8]| with.run(script, Feed::Whole).unwrap();
    let right: Vec<String> =
        scripts.iter().map(|script| printed(With::Need(RIGHT_NEED), script)).collect();
    for (fault, with) in faults() {
        let mut pairs = scripts.iter().zip(&right);
        assert!(pairs.any(|(script, right)| printed(with, script) != *right), "{fault}");
    }
}

/// By a cell less than is needed, as many and one more, on every tree of up to seven relations.
#[test]
fn every_wrong_need_is_told_by_the_trees() {
    for (fault, need) in WRONG_NEEDS {
        let compared = own_figures::compare(&With::Need(need), 1, &mut Tally::default());
        let Err(mismatch) = compared.unwrap() else {
            panic!("{fault} is not told apart");
        };
        println!("== {fault}\n{mismatch}");
    }
}

/// Plans that differ by how many cells are lent, though they cost the same, are told by the
/// queries with ties, whatever the model says.
#[test]
fn ties_are_told_by_the_queries_with_ties() {
    for (fault, solve) in WRONG_USES.into_iter().filter(|(fault, _)| fault.starts_with("another")) {
        let compared = own_answers::compare(&With::Use(solve), 1, &mut Tally::default());
        let Err(mismatch) = compared.unwrap() else {
            panic!("{fault} is not told apart");
        };
        let [expected] = &mismatch.expected[..] else { panic!("{mismatch}") };
        assert!(expected.ends_with(", however many cells are lent\n"), "{mismatch}");
    }
}

/// Most queries with ties have another plan of the same cost, which other ties would choose.
#[test]
fn queries_with_ties_have_other_plans() {
    let mut others = 0;
    for case in 0..own_answers::QUERIES {
        let query = queries::tied(&mut Random::for_case(1, case), &Extent::full());
        let plan = |method| solve::solve(&query, method).map(|plan| (plan.cost, plan.steps));
        let right = plan(Method::Rules);
        let wrong = [Method::HighestSite, Method::HighestJoin].map(plan);
        others += u64::from(wrong.iter().any(|wrong| *wrong != right));
    }
    assert!(2 * others > own_answers::QUERIES, "{others} of {}", own_answers::QUERIES);
}

/// With just its need a query has the plan that it has with 4,096 cells.
#[test]
fn the_same_plan_with_the_need_and_with_4096_cells() {
    for case in 0..2_000 {
        let query = queries::tied(&mut Random::for_case(75, case), &Extent::full());
        let mut planner = Planner::empty(Method::Rules);
        let file = reference::encode::encode(&query);
        planner.load(&file, reference::stated::Form::Sizes).unwrap();
        let solved = |cells: usize| {
            let mut output = [0; LONGEST_PLAN];
            let place = RIGHT_PLACES[case as usize % 3].1;
            let mut work: Vec<u64> = (0..cells).map(answers::lent_cell).collect();
            (in_cells(place, &planner, &mut work, &mut output), output)
        };
        let need = query.cells_needed();
        let mut output = [0; LONGEST_PLAN];
        let by_model = planner.solve(&mut vec![0; need], &mut output);
        assert_eq!(solved(need), (by_model, output));
        assert_eq!(solved(4_096), (by_model, output));
        assert_eq!(solved(need - 1).0, Err(Refusal::FewCells));
    }
}
