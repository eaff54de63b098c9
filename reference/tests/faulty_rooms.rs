//! Rooms that answer, refuse or leave what they should not, in one way each; the comparison of
//! call lists stops at every one of them, and so do random lists alone.

use std::io;

use reference::answers;
use reference::compare::program::{Answering, Feed};
use reference::compare::tally::Tally;
use reference::compare::{calls, own_figures};
use reference::generate;
use reference::method::Method;
use reference::planner::Planner;
use reference::random::Random;
use reference::refusal::Refusal;
use reference::room::{figures, room, Draft, Figures};
use reference::script::Call;
use reference::tree::Join;

type Answer = Result<Figures, Refusal>;

/// What stands in for room. A right one has no planner.
type Room = fn(&mut Planner, &Draft) -> Answer;

/// Figures of a draft that is in order.
const WRONG_FIGURES: [(&str, Room); 7] = [
    ("trials not times s", |_, draft| {
        let figures = room(draft)?;
        Ok(Figures { trials: figures.trials / draft.sites, ..figures })
    }),
    ("cells without s", |_, draft| {
        let figures = room(draft)?;
        Ok(Figures { cells: figures.subqueries, ..figures })
    }),
    ("a star's figures for every tree", |_, draft| {
        room(draft)?;
        let n = draft.relations as usize;
        let star: Vec<Join> = (1..n).map(|second| Join { first: 0, second }).collect();
        Ok(figures(&star, n, draft.sites as usize))
    }),
    ("a chain's figures for every tree", |_, draft| {
        room(draft)?;
        let n = draft.relations as usize;
        let chain: Vec<Join> = (1..n).map(|second| Join { first: second - 1, second }).collect();
        Ok(figures(&chain, n, draft.sites as usize))
    }),
    ("every set of relations counted", |_, draft| {
        let figures = room(draft)?;
        let subqueries = (1 << draft.relations) - 1;
        Ok(Figures { subqueries, cells: subqueries * draft.sites, ..figures })
    }),
    ("a trial for each subquery and site", |_, draft| {
        let figures = room(draft)?;
        Ok(Figures { trials: figures.cells, ..figures })
    }),
    ("a trial for each subquery of two and more", |_, draft| {
        let figures = room(draft)?;
        Ok(Figures { trials: figures.cells - draft.relations * draft.sites, ..figures })
    }),
];

/// Which draft is refused, and with which number.
const WRONG_REFUSALS: [(&str, Room); 18] = [
    ("a relation out of range before the number of bytes", |_, draft| {
        let limits = (1..=9).contains(&draft.relations) && (1..=8).contains(&draft.sites);
        match draft.joins.iter().any(|&relation| u64::from(relation) >= draft.relations) {
            true if limits => Err(Refusal::OutOfRange),
            _ => room(draft),
        }
    }),
    ("a join of a relation with itself as 3", |_, draft| match room(draft) {
        Err(Refusal::NotReached) if draft.joins.chunks(2).any(|ends| ends[0] == ends[1]) => {
            Err(Refusal::OutOfRange)
        }
        answer => answer,
    }),
    ("a relation out of range as 4", |_, draft| match room(draft) {
        Err(Refusal::OutOfRange) => Err(Refusal::NotReached),
        answer => answer,
    }),
    ("4 at a join of a relation with itself, before a later 3", |_, draft| match room(draft) {
        Err(Refusal::OutOfRange) => {
            let there = |&&relation: &&u8| u64::from(relation) < draft.relations;
            let read = draft.joins.iter().take_while(there).count();
            let mut pairs = draft.joins[..read].chunks_exact(2);
            let itself = pairs.any(|ends| ends[0] == ends[1]);
            Err(if itself { Refusal::NotReached } else { Refusal::OutOfRange })
        }
        answer => answer,
    }),
    ("joins that do not reach all admitted", |_, draft| match room(draft) {
        Err(Refusal::NotReached) => {
            Ok(figures(&joins(draft), draft.relations as usize, draft.sites as usize))
        }
        answer => answer,
    }),
    ("a pair more admitted", |_, draft| match draft.joins.len() {
        length @ 2.. if length as u64 / 2 == draft.relations => without_the_last(draft, 2),
        _ => room(draft),
    }),
    ("an odd byte at the end passed over", |_, draft| {
        let odd = draft.joins.len() % 2;
        without_the_last(draft, odd)
    }),
    ("the number of bytes by its low byte", |_, draft| {
        let length = draft.joins.len() % 256;
        room(&Draft { joins: draft.joins[..length].to_vec(), ..*draft })
    }),
    ("ten relations admitted", |_, draft| {
        let there = draft.joins.iter().all(|&relation| relation < 10);
        let sites = (1..=8).contains(&draft.sites);
        if draft.relations != 10 || draft.joins.len() != 18 || !there || !sites {
            return room(draft);
        }
        Ok(figures(&joins(draft), 10, draft.sites as usize))
    }),
    ("nine sites admitted", |_, draft| match draft.sites {
        9 => at_one_site(draft, 9),
        _ => room(draft),
    }),
    ("no site admitted", |_, draft| match draft.sites {
        0 => at_one_site(draft, 0),
        _ => room(draft),
    }),
    ("n by its low byte", |_, draft| {
        room(&Draft { relations: draft.relations % 256, ..draft.clone() })
    }),
    ("n by its low four bytes", |_, draft| {
        room(&Draft { relations: draft.relations % (1 << 32), ..draft.clone() })
    }),
    ("s by its low byte", |_, draft| room(&Draft { sites: draft.sites % 256, ..draft.clone() })),
    ("s by its low four bytes", |_, draft| {
        room(&Draft { sites: draft.sites % (1 << 32), ..draft.clone() })
    }),
    ("one relation refused", |_, draft| match draft.relations {
        1 => Err(Refusal::WrongCount),
        _ => room(draft),
    }),
    ("only the first relation of a join judged", |_, draft| {
        let first = |ends: &[u8]| u64::from(ends[0]) >= draft.relations;
        match room(draft) {
            Err(Refusal::OutOfRange) if !draft.joins.chunks(2).any(first) => {
                Err(Refusal::NotReached)
            }
            answer => answer,
        }
    }),
    ("always refused", |_, _| Err(Refusal::WrongCount)),
];

/// Room has nothing to do with the state.
const WRONG_STATES: [(&str, Room); 5] = [
    ("20 while nothing is loaded", |planner, draft| match planner.query() {
        None => Err(Refusal::NothingLoaded),
        Some(_) => room(draft),
    }),
    ("the query in force told", |planner, draft| match planner.query() {
        Some(query) if room(draft).is_ok() => room(&Draft::of(query)),
        _ => room(draft),
    }),
    ("s of the query in force taken", |planner, draft| match planner.query() {
        Some(query) => room(&Draft { sites: query.sites.len() as u64, ..draft.clone() }),
        None => room(draft),
    }),
    ("the query cleared", |planner, draft| {
        let answer = room(draft);
        if answer.is_ok() {
            *planner = Planner::empty(Method::Rules);
        }
        answer
    }),
    ("the query cleared by a refused room", |planner, draft| {
        let answer = room(draft);
        if answer.is_err() {
            *planner = Planner::empty(Method::Rules);
        }
        answer
    }),
];

fn joins(draft: &Draft) -> Vec<Join> {
    let join = |ends: &[u8]| Join { first: ends[0].into(), second: ends[1].into() };
    draft.joins.chunks_exact(2).map(join).collect()
}

fn without_the_last(draft: &Draft, bytes: usize) -> Answer {
    let joins = draft.joins[..draft.joins.len() - bytes].to_vec();
    room(&Draft { joins, ..*draft })
}

/// The figures at one site, times so many.
fn at_one_site(draft: &Draft, times: u64) -> Answer {
    let Figures { subqueries, trials, .. } = room(&Draft { sites: 1, ..draft.clone() })?;
    Ok(Figures { subqueries, cells: subqueries * times, trials: trials * times })
}

fn faults() -> impl Iterator<Item = (&'static str, Room)> {
    WRONG_FIGURES.into_iter().chain(WRONG_REFUSALS).chain(WRONG_STATES)
}

/// The model with another room.
struct With(Room);

impl Answering for With {
    fn run(&self, mut script: &[u8], _: Feed) -> io::Result<String> {
        let With(room) = self;
        let mut planner = Planner::empty(Method::Rules);
        let mut text = String::new();
        while let Some(call) = Call::next(&mut script) {
            let lines = match call {
                Call::Room(draft) => vec![answers::room_line(room(&mut planner, &draft))],
                _ => call.run(&mut planner),
            };
            text.extend(lines.into_iter().map(|line| line + "\n"));
        }
        Ok(text)
    }
}

const RIGHT: Room = |_, draft| room(draft);

#[test]
fn the_right_room_passes() {
    assert!(calls::compare(&With(RIGHT), 67, 20).unwrap().is_ok());
}

#[test]
fn every_fault_is_found() {
    for (fault, room) in faults() {
        let compared = calls::compare(&With(room), calls::DEFAULT_SEED, calls::DEFAULT_LISTS);
        let Err(mismatch) = compared.unwrap() else {
            panic!("{fault} is not found");
        };
        println!("== {fault}\n{mismatch}");
        assert!(mismatch.calls.len() <= 3, "{fault}: {mismatch}");
    }
}

/// With no fixed list before them.
#[test]
fn every_fault_is_found_in_random_lists() {
    let script = |case| {
        let list = generate::calls::calls(&mut Random::for_case(68, case), 400);
        list.iter().flat_map(Call::record).collect()
    };
    let scripts: Vec<Vec<u8>> = (0..40).map(script).collect();
    let printed = |room, script: &[u8]| With(room).run(script, Feed::Whole).unwrap();
    let right: Vec<String> = scripts.iter().map(|script| printed(RIGHT, script)).collect();
    for (fault, room) in faults() {
        let mut pairs = scripts.iter().zip(&right);
        assert!(pairs.any(|(script, right)| printed(room, script) != *right), "{fault}");
    }
}

/// By what the program itself prints for a load and a solve, whatever the model says.
#[test]
fn every_wrong_figure_is_told_from_load_and_solve() {
    for (fault, room) in WRONG_FIGURES {
        let compared = own_figures::compare(&With(room), 1, &mut Tally::default());
        let Err(mismatch) = compared.unwrap() else {
            panic!("{fault} is not told apart");
        };
        println!("== {fault}\n{mismatch}");
        let [expected] = &mismatch.expected[..] else { panic!("{mismatch}") };
        assert!(expected.ends_with(", by its load and solve\n"), "{mismatch}");
    }
}
