//! Routes: sends of one result, each over an open line, and the best of those from a site to
//! another.

use crate::limits::MOST_SITES;
use crate::prices;
use crate::query::Query;
use crate::sets::Set;
use crate::units::Charge;

/// Sends one after the other: what they cost together, how many there are, and the sites sent
/// to, as the digits of a number. The better route comes first: the cheaper one, then the one of
/// fewer sends, then the one whose next site is lower, seen from each sender in turn. That is
/// the order of the fields.
#[derive(Clone, Copy, Debug, PartialEq, Eq, PartialOrd, Ord)]
pub struct Route {
    pub cost: Charge,
    pub sends: usize,
    digits: u64,
}

/// A digit for each site.
const BASE: u64 = MOST_SITES as u64;

impl Route {
    /// No send at all.
    pub const STAY: Route = Route { cost: Charge(0), sends: 0, digits: 0 };

    /// One send more.
    pub fn then(self, to: usize, price: Charge) -> Route {
        let digits = BASE * self.digits + to as u64;
        Route { cost: self.cost + price, sends: self.sends + 1, digits }
    }

    /// The sites sent to, in order.
    pub fn stops(&self) -> impl DoubleEndedIterator<Item = usize> {
        let digits = self.digits;
        let place = (0..self.sends as u32).rev();
        place.map(move |place| (digits / BASE.pow(place) % BASE) as usize)
    }
}

/// What a send costs, by sender, then receiver: none over a closed line and to where it stands.
pub type Prices = Vec<Vec<Option<Charge>>>;

/// The best route of a subquery's result; none where no open lines lead there.
pub fn best(query: &Query, subquery: Set, from: usize, to: usize) -> Option<Route> {
    let size = query.size(subquery);
    let prices = prices(query.sites.len(), |sender, receiver| {
        let line = query.line(sender, receiver);
        line.open.then(|| prices::send(line, size))
    });
    best_from(from, &prices, &Route::lt).swap_remove(to)
}

/// The prices of sends between so many sites.
pub fn prices(sites: usize, price: impl Fn(usize, usize) -> Option<Charge>) -> Prices {
    let mut prices = vec![vec![None; sites]; sites];
    for (sender, receiver) in Query::line_ends(sites) {
        prices[sender][receiver] = price(sender, receiver);
    }
    prices
}

/// The best routes from a site to each, by which of two routes is better.
pub fn best_from(
    from: usize,
    prices: &Prices,
    better: &impl Fn(&Route, &Route) -> bool,
) -> Vec<Option<Route>> {
    let mut best = start(from, prices.len());
    while improve(&mut best, prices, better) {}
    best
}

/// No route but that of no send.
pub fn start(from: usize, sites: usize) -> Vec<Option<Route>> {
    let mut best = vec![None; sites];
    best[from] = Some(Route::STAY);
    best
}

/// Puts each line behind the best route so far to its sender, and says whether a better route
/// came of it. Of two routes the better one stays so with a line behind both, and a route that
/// comes back to a site is no better than without that; so where no line brings anything more,
/// the routes are the best of all.
pub fn improve(
    best: &mut [Option<Route>],
    prices: &Prices,
    better: &impl Fn(&Route, &Route) -> bool,
) -> bool {
    let mut improved = false;
    for (sender, receiver) in Query::line_ends(best.len()) {
        let (Some(route), Some(price)) = (best[sender], prices[sender][receiver]) else {
            continue;
        };
        let longer = route.then(receiver, price);
        if best[receiver].is_none_or(|known| better(&longer, &known)) {
            best[receiver] = Some(longer);
            improved = true;
        }
    }
    improved
}
