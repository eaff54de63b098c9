//! The lines that a command line names, and what it changes of them.

use std::ffi::OsString;

use reference::limits::{MOST_FIXED, MOST_RATE};
use reference::names::Names;
use reference::planner::Link;
use reference::query::{Line, Query};
use reference::refusal::Refusal;

use crate::failure::Failure;
use crate::near::did_you_mean;
use crate::text::is_number;
use crate::wording;

/// What stands behind one `--line`; the sites need not be listed.
#[derive(Clone, Debug, Default, PartialEq, Eq)]
pub struct Change {
    pub sender: u64,
    pub receiver: u64,
    pub open: Option<bool>,
    pub fixed: Option<u64>,
    pub rate: Option<u64>,
}

impl Change {
    /// From the words behind `--line`.
    pub fn read(words: &[OsString], names: &Names) -> Result<Change, Failure> {
        let words: Vec<_> = words.iter().map(|word| word.to_string_lossy()).collect();
        let [sender, receiver, terms @ ..] = &words[..] else {
            return Err(Failure::Usage("--line needs the two sites of a line".into()));
        };
        let (sender, receiver) = (site(sender, names)?, site(receiver, names)?);
        let mut change = Change { sender, receiver, ..Change::default() };
        let mut terms = terms.iter();
        while let Some(term) = terms.next() {
            match term.as_ref() {
                "open" => once(&mut change.open, true, "'open' or 'closed'")?,
                "closed" => once(&mut change.open, false, "'open' or 'closed'")?,
                "fixed" => once(&mut change.fixed, amount("fixed", terms.next())?, "'fixed'")?,
                "rate" => once(&mut change.rate, amount("rate", terms.next())?, "'rate'")?,
                other => return Err(unknown(other)),
            }
        }
        Ok(change)
    }

    /// Whether nothing is changed, and the line is only asked about.
    pub fn is_empty(&self) -> bool {
        self.open.is_none() && self.fixed.is_none() && self.rate.is_none()
    }

    /// The call that changes the line; what is not changed is as it stands.
    pub fn link(&self, query: &Query) -> Link {
        let listed = |site: u64| usize::try_from(site).ok().filter(|&it| it < query.sites.len());
        let line: Option<&Line> = match (listed(self.sender), listed(self.receiver)) {
            (Some(sender), Some(receiver)) if sender != receiver => {
                Some(query.line(sender, receiver))
            }
            _ => None,
        };
        let as_it_is = |amount: fn(&Line) -> u64| line.map_or(0, amount);
        Link {
            sender: self.sender,
            receiver: self.receiver,
            open: self.open.map_or_else(|| as_it_is(|line| line.open.into()), u64::from),
            fixed: self.fixed.unwrap_or_else(|| as_it_is(|line| line.fixed.0)),
            rate: self.rate.unwrap_or_else(|| as_it_is(|line| line.rate.0)),
        }
    }
}

/// How link refuses it, and the words for it.
pub fn refusal(link: &Link, query: &Query, names: &Names) -> Option<(Refusal, String)> {
    let last = query.sites.len() as u64 - 1;
    if let Some(site) = [link.sender, link.receiver].into_iter().find(|&site| site > last) {
        let must = wording::range(0, last);
        return Some((Refusal::LinkSites, format!("there is no site {site}: must be {must}")));
    }
    if link.sender == link.receiver {
        let site = names.the_site(link.sender as usize);
        return Some((Refusal::LinkSites, format!("no line leads from {site} to itself")));
    }
    let amounts = [("fixed", link.fixed, MOST_FIXED), ("rate", link.rate, MOST_RATE)];
    let over = amounts.into_iter().find(|&(_, amount, most)| amount > most);
    over.map(|(what, amount, most)| {
        (Refusal::OutOfRange, format!("{what} {amount}: must be 0 to {most}"))
    })
}

fn site(word: &str, names: &Names) -> Result<u64, Failure> {
    if let Some(number) = names.sites.iter().position(|name| name.as_deref() == Some(word)) {
        return Ok(number as u64);
    }
    number(word).ok_or_else(|| {
        let meant = did_you_mean(word, names.sites.iter().flatten().map(String::as_str));
        Failure::Usage(format!("no site '{word}'{meant}"))
    })
}

fn amount(what: &str, word: Option<&impl AsRef<str>>) -> Result<u64, Failure> {
    let Some(word) = word.map(AsRef::as_ref) else {
        return Err(Failure::Usage(format!("'{what}' needs a number behind it")));
    };
    number(word).ok_or_else(|| {
        let why = if is_number(word) { "too large" } else { "not a number" };
        Failure::Usage(format!("'{word}' behind '{what}' is {why}"))
    })
}

/// Without a sign, as in a text.
fn number(word: &str) -> Option<u64> {
    word.parse().ok().filter(|_| is_number(word))
}

fn once<T>(place: &mut Option<T>, value: T, what: &str) -> Result<(), Failure> {
    match place.replace(value) {
        None => Ok(()),
        Some(_) => Err(Failure::Usage(format!("{what} is there twice behind one --line"))),
    }
}

fn unknown(word: &str) -> Failure {
    let meant = did_you_mean(word, ["open", "closed", "fixed", "rate"]);
    Failure::Usage(format!(
        "'{word}' says nothing of a line: it is open, closed, fixed F or rate R{meant}"
    ))
}
