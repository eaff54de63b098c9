//! The statements of sites, relations, lines and delivery: what they declare and its terms.

use reference::limits::{MOST_FIXED, MOST_RATE};
use reference::query::{Line, Site};
use reference::units::{Charge, Rate};

use crate::near::near;
use crate::text::read::{RELATION, SITE};
use crate::text::reading::{Limits, Read, Reading};
use crate::text::statement::{Called, Home, Said, Terms, Which};
use crate::text::vocabulary::is_taken;

const FIXED: Limits = Limits { what: "a fixed amount", least: 0, most: MOST_FIXED };
const RATE: Limits = Limits { what: "a rate", least: 0, most: MOST_RATE };

impl<'t> Reading<'_, 't> {
    pub fn sites(&mut self, several: bool) -> Said<'t> {
        let which = self.which(SITE, several);
        let terms = match (&which, self.next()) {
            (Ok(_), None) => Terms::Bare,
            (Ok(_), Some(_)) => self.site_terms().unwrap_or(Terms::Faulty),
            (Err(_), _) => Terms::Faulty,
        };
        Said::Sites { which: which.unwrap_or(Which::Unread), terms }
    }

    pub fn relations(&mut self, several: bool) -> Said<'t> {
        let which = self.which(RELATION, several);
        let terms = match (&which, self.next()) {
            (Ok(_), None) => Terms::Bare,
            (Ok(_), Some(_)) => self.relation_terms(several).unwrap_or(Terms::Faulty),
            (Err(_), _) => Terms::Faulty,
        };
        Said::Relations { which: which.unwrap_or(Which::Unread), terms }
    }

    /// Those that are declared, up to the word with which their terms begin. Only 'may' stands
    /// before 'join' or 'not'.
    fn which(&mut self, what: &str, several: bool) -> Read<Which<'t>> {
        let first = self.called(what)?;
        if !several {
            return Ok(Which::List(vec![first]));
        }
        if self.next().is_some_and(|word| word.text == "to") {
            self.skip();
            return Ok(Which::FromTo(first, self.called(what)?));
        }
        let mut list = vec![first];
        while let Some(word) = self.next().filter(|word| !is_taken(word.text)) {
            let next = self.words.get(1).map(|word| word.text);
            if matches!(next, Some("join" | "not")) && near(word.text, ["may"]).is_some() {
                break;
            }
            list.push(self.called(what)?);
        }
        Ok(Which::List(list))
    }

    fn site_terms(&mut self) -> Read<Terms<Site>> {
        self.word("may")?;
        let may_join = self.one_of(&["join", "not"])? == 0;
        if !may_join {
            self.word("join")?;
        }
        let amounts = self.amounts()?;
        Ok(match amounts {
            Some((fixed, rate)) => Terms::Told(Site { may_join, fixed, rate }),
            None => Terms::Faulty,
        })
    }

    fn relation_terms(&mut self, several: bool) -> Read<Terms<Home<'t>>> {
        if several {
            return self.wrong("the end of the statement (one with a home is a 'relation')");
        }
        self.word("at")?;
        let site = self.home()?;
        let index = self.next().is_some();
        if index {
            self.indexed()?;
        }
        Ok(Terms::Told(Home { site, index }))
    }

    fn indexed(&mut self) -> Read<()> {
        match self.next() {
            Some(word) if near(word.text, ["indexed"]).is_none() => {
                self.wrong("'indexed' or the end of the statement")
            }
            _ => {
                self.word("indexed")?;
                self.ends()
            }
        }
    }

    /// A site; the word 'site' may stand before it.
    fn home(&mut self) -> Read<Called<'t>> {
        let misspelt = match self.words {
            [word, after, ..] => {
                near(word.text, ["site"]).is_some() && near(after.text, ["indexed"]).is_none()
            }
            _ => false,
        };
        if misspelt || self.next().is_some_and(|word| word.text == "site") {
            self.word("site")?;
        }
        self.called(SITE)
    }

    pub fn delivery(&mut self) -> Said<'t> {
        let mut site = None;
        self.as_far(|words| {
            words.word("to")?;
            site = words.home()?;
            words.ends()
        });
        Said::Delivery(site)
    }

    pub fn every_line(&mut self) -> Said<'t> {
        let line = self.word("line").and_then(|()| self.line_terms());
        Said::EveryLine(line.unwrap_or(None))
    }

    pub fn line(&mut self) -> Said<'t> {
        let mut ends = [None, None];
        let mut line = None;
        self.as_far(|words| {
            ends[0] = words.called(SITE)?;
            words.word("to")?;
            ends[1] = words.called(SITE)?;
            line = words.line_terms()?;
            Ok(())
        });
        Said::Line { ends, line }
    }

    fn line_terms(&mut self) -> Read<Option<Line>> {
        let open = self.one_of(&["open", "closed"])? == 0;
        let amounts = self.amounts()?;
        Ok(amounts.map(|(fixed, rate)| Line { open, fixed, rate }))
    }

    /// The fixed amount and the rate, and no word behind them.
    fn amounts(&mut self) -> Read<Option<(Charge, Rate)>> {
        self.word("fixed")?;
        let fixed = self.number(&FIXED)?;
        self.word("rate")?;
        let rate = self.number(&RATE)?;
        self.ends()?;
        Ok(fixed.zip(rate).map(|(fixed, rate)| (Charge(fixed), Rate(rate))))
    }
}
