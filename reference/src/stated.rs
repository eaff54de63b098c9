//! A query as a file or a text states it, in one of two forms: with the size of every
//! subquery, or with rows and divisors from which the sizes are worked out.

use crate::query::Query;
use crate::rows::RowCounts;

/// Which load a file is for.
#[derive(Clone, Copy, Debug, PartialEq, Eq)]
pub enum Form {
    /// The ordinary file, for load.
    Sizes,
    /// The file for load from rows.
    Rows,
}

impl Form {
    pub const ALL: [Form; 2] = [Form::Sizes, Form::Rows];

    /// The call that takes such a file.
    pub fn load_name(self) -> &'static str {
        match self {
            Form::Sizes => "load",
            Form::Rows => "load from rows",
        }
    }
}

#[derive(Clone, Debug, PartialEq, Eq)]
pub struct Stated {
    pub query: Query,
    /// What the query's sizes are worked out from; nothing where each is stated itself.
    pub counts: Option<RowCounts>,
}

impl Stated {
    /// The query with the sizes that the row counts give it.
    pub fn from_rows(mut query: Query, counts: RowCounts) -> Stated {
        query.sizes = counts.sizes(query.joins());
        Stated { query, counts: Some(counts) }
    }

    pub fn form(&self) -> Form {
        match self.counts {
            None => Form::Sizes,
            Some(_) => Form::Rows,
        }
    }
}

impl From<Query> for Stated {
    fn from(query: Query) -> Stated {
        Stated { query, counts: None }
    }
}
