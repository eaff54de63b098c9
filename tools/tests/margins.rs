//! How far a line's price may move: held to the last unit by the model, which searches nothing.

mod common;

use common::proved;
use fanchuki::proved::calls::Solved;
use fanchuki::proved::loaded::Loaded;
use fanchuki::whatif::margins::{self, Margins};
use reference::check;
use reference::generate::queries::{self, Extent};
use reference::limits::{MOST_FIXED, MOST_RATE};
use reference::method::Method;
use reference::query::{Line, Query};
use reference::random::Random;
use reference::solve;
use reference::step;
use reference::units::{Charge, Rate};

/// The cheapest plan by the model's tables, and its cost.
fn solved(query: &Query) -> Option<(u64, Vec<u8>)> {
    let plan = solve::solve(query, Method::Rules)?;
    Some((plan.cost.0, step::plan_bytes(&plan.steps)))
}

fn cost(query: &Query, plan: &[u8]) -> Option<u64> {
    check::check(query, plan).ok().map(|charge| charge.0)
}

fn with(query: &Query, (sender, receiver): (usize, usize), line: Line) -> Query {
    let mut changed = query.clone();
    *changed.line_mut(sender, receiver) = line;
    changed
}

/// A plan uses a line where its cost moves with the line's fixed amount.
fn uses(query: &Query, plan: &[u8], ends: (usize, usize)) -> bool {
    let line = *query.line(ends.0, ends.1);
    let moved = Line { fixed: Charge(line.fixed.0 + 1), ..line };
    cost(query, plan) != cost(&with(query, ends, moved), plan)
}

/// What must hold up to the margin and not beyond, by the model.
struct Scan<'a> {
    query: &'a Query,
    ends: (usize, usize),
    today: &'a [u8],
    used: bool,
}

impl Scan<'_> {
    fn holds(&self, line: Line) -> bool {
        let changed = with(self.query, self.ends, Line { open: true, ..line });
        let (cheapest, plan) = solved(&changed).expect("there is a route today");
        match self.used {
            true => cost(&changed, self.today) == Some(cheapest),
            false => uses(&changed, &plan, self.ends),
        }
    }

    /// All values near the margin, some far from it.
    fn is_margin(&self, found: Option<u64>, least: u64, most: u64, line: impl Fn(u64) -> Line) {
        let around = found.unwrap_or_default();
        let far = (0..=16).map(|part| least + (most - least) * part / 16);
        let near = around.saturating_sub(4).max(least)..=(around + 4).min(most);
        for value in near.chain(far) {
            let expected = found.is_some_and(|found| value <= found);
            assert_eq!(self.holds(line(value)), expected, "{found:?}, {value}, {:?}", self.ends);
        }
    }
}

/// Whether a send follows a send.
fn sends_on(plan: &[u8]) -> bool {
    let kinds: Vec<u8> = plan[1..].chunks(2).map(|step| step[0]).collect();
    kinds.windows(2).any(|two| two == [2, 2])
}

/// Of every line of the query; how many are used, in a plan with routes, and how many fall short
/// at 0.
fn hold_margins(loaded: &mut Loaded, met: &mut [u64; 6]) {
    let query = loaded.query.clone();
    let Some((_, today)) = solved(&query) else {
        return;
    };
    for ends in Query::line_ends(query.sites.len()) {
        let line = *query.line(ends.0, ends.1);
        let found = margins::margins(loaded, &today, ends).expect("margins");
        assert_eq!(loaded.query, query, "every line is as it was");
        let used = uses(&query, &today, ends);
        let scan = Scan { query: &query, ends, today: &today, used };
        let (fixed, rate, least) = match found {
            Margins::Used { fixed, rate } => {
                met[0] += 1;
                met[1] += u64::from(fixed == MOST_FIXED);
                met[5] += u64::from(sends_on(&today));
                (Some(fixed), Some(rate), [line.fixed.0, line.rate.0])
            }
            Margins::Unused { fixed, rate, both } => {
                met[2] += u64::from(fixed.is_some());
                met[3] += u64::from(!line.open && rate.is_some());
                met[4] += u64::from(both);
                let free = Line { fixed: Charge(0), rate: Rate(0), ..line };
                let short = fixed.is_none() && rate.is_none();
                assert_eq!(both, short && scan.holds(free));
                (fixed, rate, [0, 0])
            }
        };
        assert_eq!(used, matches!(found, Margins::Used { .. }));
        let fixed_line = |value| Line { fixed: Charge(value), ..line };
        scan.is_margin(fixed, least[0], MOST_FIXED, fixed_line);
        let rate_line = |value| Line { rate: Rate(value), ..line };
        scan.is_margin(rate, least[1], MOST_RATE, rate_line);
    }
    let after = loaded.solve().expect("an answer");
    assert!(matches!(after, Solved::Plan { plan, .. } if plan == today));
}

/// Hundreds of queries of all shapes, on one run of the proved program.
#[test]
fn margins_hold_to_the_last_unit() {
    let mut loaded = proved::running();
    let mut met = [0; 6];
    for case in 0..600 {
        let mut random = Random::for_case(74, case);
        let sites = random.between(2, 5);
        let extent = Extent { relations: 1..=5, sites: sites..=sites };
        let query = match case % 2 {
            0 => queries::query(&mut random, &extent),
            _ => queries::tied(&mut random, &extent),
        };
        proved::put(&mut loaded, query.into());
        hold_margins(&mut loaded, &mut met);
    }
    assert!(met.iter().all(|&count| count > 10), "{met:?}");
}

/// Every rate from the least to the limit, of some line of small queries.
#[test]
fn a_scan_of_all_rates() {
    let mut loaded = proved::running();
    for case in 0..30 {
        let mut random = Random::for_case(81, case);
        let query = queries::query(&mut random, &Extent { relations: 2..=4, sites: 2..=3 });
        proved::put(&mut loaded, query.clone().into());
        let ends: Vec<(usize, usize)> = Query::line_ends(query.sites.len()).collect();
        let ends = random.pick(&ends);
        if let Some((_, today)) = solved(&query) {
            let line = *query.line(ends.0, ends.1);
            let used = uses(&query, &today, ends);
            let scan = Scan { query: &query, ends, today: &today, used };
            let least = if used { line.rate.0 } else { 0 };
            let found = match margins::margins(&mut loaded, &today, ends).expect("margins") {
                Margins::Used { rate, .. } => Some(rate),
                Margins::Unused { rate, .. } => rate,
            };
            for value in least..=MOST_RATE {
                let holds = scan.holds(Line { rate: Rate(value), ..line });
                assert_eq!(holds, found.is_some_and(|found| value <= found), "{value}, {found:?}");
            }
        }
    }
}

/// The plans at these prices of a line, from the first on that does without it.
fn without(query: &Query, ends: (usize, usize), prices: Vec<Line>) -> Vec<Vec<u8>> {
    let changed = prices.into_iter().map(|line| with(query, ends, line));
    let plans = changed.filter_map(|query| Some((solved(&query)?.1, query)));
    plans.skip_while(|(plan, query)| uses(query, plan, ends)).map(|(plan, _)| plan).collect()
}

/// A plan that does without the line is the plan at all higher prices too.
#[test]
fn a_plan_without_the_line_stays() {
    let mut left = 0;
    for case in 0..300 {
        let mut random = Random::for_case(82, case);
        let query = queries::tied(&mut random, &Extent { relations: 1..=4, sites: 2..=5 });
        for ends in Query::line_ends(query.sites.len()) {
            let line = Line { open: true, ..*query.line(ends.0, ends.1) };
            let by_fixed = (0..8).map(|fixed| Line { fixed: Charge(fixed), ..line }).collect();
            let by_rate = (0..8).map(|rate| Line { rate: Rate(rate), ..line }).collect();
            for prices in [by_fixed, by_rate] {
                let without = without(&query, ends, prices);
                assert!(without.windows(2).all(|two| two[0] == two[1]), "case {case}, {ends:?}");
                left += u64::from((1..8).contains(&without.len()));
            }
        }
    }
    assert!(left > 200, "{left}");
}
