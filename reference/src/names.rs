//! What a text calls the sites and relations of its query, where it gives them names.

use crate::sets::{self, Set};

/// By number; one without a name is called by its number.
#[derive(Clone, Debug, Default, PartialEq, Eq)]
pub struct Names {
    pub sites: Vec<Option<String>>,
    pub relations: Vec<Option<String>>,
}

impl Names {
    /// The name, or the number alone.
    pub fn site(&self, number: usize) -> String {
        known(&self.sites, number).map_or_else(|| number.to_string(), str::to_string)
    }

    /// The name, or the number alone.
    pub fn relation(&self, number: usize) -> String {
        known(&self.relations, number).map_or_else(|| number.to_string(), str::to_string)
    }

    /// The name, or the number behind its kind, for a sentence.
    pub fn the_site(&self, number: usize) -> String {
        known(&self.sites, number).map_or_else(|| format!("site {number}"), str::to_string)
    }

    /// The name, or the number behind its kind, for a sentence.
    pub fn the_relation(&self, number: usize) -> String {
        known(&self.relations, number).map_or_else(|| format!("relation {number}"), str::to_string)
    }

    /// The relations of the set, ascending, apart by blanks.
    pub fn set(&self, set: Set) -> String {
        let names: Vec<String> = sets::members(set).map(|number| self.relation(number)).collect();
        names.join(" ")
    }
}

fn known(names: &[Option<String>], number: usize) -> Option<&str> {
    names.get(number).and_then(|name| name.as_deref())
}
