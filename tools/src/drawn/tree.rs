//! A plan as a tree: relations and joins, each with how it gets to where it is used.

use reference::step::Step;
use reference::units::{Bytes, Charge};

use crate::priced::{Joining, Price, Priced, Sending};

/// A result that is made: a relation as it is loaded, or a join of two.
#[derive(Clone, Debug, PartialEq, Eq)]
pub enum Made {
    Relation(usize),
    Join { join: usize, joining: Joining, operands: [usize; 2] },
}

/// A result, the site where it is made, and what making it costs.
#[derive(Clone, Debug, PartialEq, Eq)]
pub struct Node {
    pub made: Made,
    pub site: usize,
    pub size: Bytes,
    pub charge: Charge,
    /// The sends that take it to where it is used; none where it stays.
    pub route: Vec<Sending>,
    /// It stays, and its index is followed there.
    pub spared: bool,
}

/// Operands before what is made of them, so the whole result is the last.
pub fn nodes(steps: &[Priced]) -> Option<Vec<Node>> {
    let mut nodes: Vec<Node> = Vec::new();
    let mut held: Vec<usize> = Vec::new();
    for priced in steps {
        let charge = priced.price.charge();
        let made = match (priced.step, &priced.price) {
            (Step::Load { relation }, _) => Made::Relation(relation),
            (Step::Join { join }, Price::Join(joining)) => {
                let (top, below) = (held.pop()?, held.pop()?);
                if let Some(spared) = joining.spared_place() {
                    nodes.get_mut([below, top][spared])?.spared = true;
                }
                Made::Join { join, joining: *joining, operands: [below, top] }
            }
            (_, Price::Send(sending)) => {
                nodes.get_mut(*held.last()?)?.route.push(*sending);
                continue;
            }
            _ => return None,
        };
        held.push(nodes.len());
        nodes.push(Node {
            made,
            site: priced.held.site,
            size: priced.size,
            charge,
            route: Vec::new(),
            spared: false,
        });
    }
    Some(nodes)
}
