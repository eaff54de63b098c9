//! What one line of a text states, before it is known what the others do.

use reference::query::{Line, Site};

use crate::text::fault::Place;
use crate::text::scan::Word;

/// A word that calls something, or nothing where it was faulty and told.
pub type Called<'t> = Option<Word<'t>>;

#[derive(Clone, Debug)]
pub struct Statement<'t> {
    /// Of its first word.
    pub place: Place,
    /// Behind its last word.
    pub end: Place,
    pub said: Said<'t>,
}

/// Where a part is nothing, a fault was told of it.
#[derive(Clone, Debug)]
pub enum Said<'t> {
    Sites {
        which: Which<'t>,
        terms: Terms<Site>,
    },
    Relations {
        which: Which<'t>,
        terms: Terms<Home<'t>>,
    },
    Join {
        number: Called<'t>,
        ends: [Called<'t>; 2],
    },
    Size {
        relations: Option<Vec<Called<'t>>>,
        size: Option<u64>,
    },
    Rows {
        relation: Called<'t>,
        rows: Option<u64>,
    },
    Divisor {
        join: Called<'t>,
        divisor: Option<u64>,
    },
    EveryLine(Option<Line>),
    Line {
        ends: [Called<'t>; 2],
        line: Option<Line>,
    },
    Delivery(Called<'t>),
    /// No statement: it may have been meant as any.
    Unread(Vec<Word<'t>>),
}

/// What a statement declares, in order.
#[derive(Clone, Debug)]
pub enum Which<'t> {
    List(Vec<Called<'t>>),
    FromTo(Called<'t>, Called<'t>),
    /// It can't be made out how many.
    Unread,
}

/// What is said of those that are declared.
#[derive(Clone, Debug)]
pub enum Terms<T> {
    /// Nothing, as in a draft.
    Bare,
    Told(T),
    Faulty,
}

#[derive(Clone, Copy, Debug)]
pub struct Home<'t> {
    pub site: Called<'t>,
    pub index: bool,
}
