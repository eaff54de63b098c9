//! Carriage: what it takes to have a result at another site, by the routes that a method takes.

use crate::method::Method;
use crate::query::Query;
use crate::routes::{self, Prices, Route};
use crate::sets::{self, Set};
use crate::units::{Bytes, Charge};
use crate::wrong_routes;

/// The routes of results of one size, by sender, then receiver.
pub struct Carriage {
    size: Bytes,
    routes: Vec<Vec<Option<Route>>>,
}

impl Carriage {
    pub fn of(query: &Query, method: Method, subquery: Set) -> Carriage {
        let size = query.size(subquery);
        let own = prices(query, method, size);
        let from = |site| match method {
            Method::RoutedByAPart => {
                let part = query.size(sets::single(sets::lowest(subquery)));
                wrong_routes::repriced(site, &prices(query, method, part), &own)
            }
            _ => wrong_routes::best_from(method, site, &own),
        };
        Carriage { size, routes: (0..query.sites.len()).map(from).collect() }
    }

    /// Whether results of this size take these routes too.
    pub fn suits(&self, method: Method, size: Bytes) -> bool {
        self.size == size && method != Method::RoutedByAPart
    }

    pub fn route(&self, from: usize, to: usize) -> Option<Route> {
        self.routes[from][to]
    }

    pub fn cost(&self, from: usize, to: usize) -> Option<Charge> {
        self.route(from, to).map(|route| route.cost)
    }
}

fn prices(query: &Query, method: Method, size: Bytes) -> Prices {
    routes::prices(query.sites.len(), |sender, receiver| {
        let line = match method {
            Method::OtherDirection => query.line(receiver, sender),
            _ => query.line(sender, receiver),
        };
        line.open.then(|| method.send(line, size))
    })
}
