//! Routes by the rules, or in one of the ways that nearly work.

use std::cmp::Reverse;

use crate::method::Method;
use crate::routes::{self, Prices, Route};

/// The routes from a site to each that the method takes for the best.
pub fn best_from(method: Method, from: usize, prices: &Prices) -> Vec<Option<Route>> {
    let sites = prices.len();
    let right = || routes::best_from(from, prices, &Route::lt);
    match method {
        Method::DirectLineOnly => direct(from, prices),
        Method::OneSendFewer => {
            let enough = |route: &Route| route.sends <= 1 || route.sends + 2 <= sites;
            right().into_iter().map(|route| route.filter(enough)).collect()
        }
        Method::LinesWeighedOnce => {
            let mut once = routes::start(from, sites);
            routes::improve(&mut once, prices, &Route::lt);
            once
        }
        Method::MostSends => {
            let order = |route: &Route| (route.cost, Reverse(route.sends), *route);
            let better =
                |one: &Route, other: &Route| order(one) < order(other) && !comes_back(from, one);
            routes::best_from(from, prices, &better)
        }
        Method::LowestFromReceiver => {
            let back = |route: &Route| route.stops().rev().collect::<Vec<_>>();
            let order = |route: &Route| (route.cost, route.sends, back(route));
            routes::best_from(from, prices, &|one, other| order(one) < order(other))
        }
        _ => right(),
    }
}

/// The routes that are best at the prices of a part, at what they cost.
pub fn repriced(from: usize, of_a_part: &Prices, prices: &Prices) -> Vec<Option<Route>> {
    let repriced = |route: Route| {
        let mut at = from;
        let mut repriced = Route::STAY;
        for to in route.stops() {
            let price = prices[at][to].expect("a route leads over open lines");
            repriced = repriced.then(to, price);
            at = to;
        }
        repriced
    };
    let chosen = routes::best_from(from, of_a_part, &Route::lt);
    chosen.into_iter().map(|route| route.map(repriced)).collect()
}

/// Each site by its own line.
fn direct(from: usize, prices: &Prices) -> Vec<Option<Route>> {
    let mut direct = routes::start(from, prices.len());
    for (to, price) in prices[from].iter().enumerate() {
        if let Some(price) = *price {
            direct[to] = Some(Route::STAY.then(to, price));
        }
    }
    direct
}

/// Some site is on the route twice.
fn comes_back(from: usize, route: &Route) -> bool {
    let mut sites: Vec<usize> = route.stops().chain([from]).collect();
    sites.sort();
    sites.windows(2).any(|pair| pair[0] == pair[1])
}
