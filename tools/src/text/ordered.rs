//! The sites, relations or joins of a text, which are declared in order.

use crate::text::fault::{Faults, Place};
use crate::text::scan::Word;
use crate::text::statement::Called;
use crate::text::vocabulary::is_number;
use crate::wording::quoted;

#[derive(Clone, Debug)]
pub struct Ordered {
    /// What one of them is called.
    pub one: &'static str,
    most: usize,
    /// Where each is declared.
    lines: Vec<usize>,
    /// False where the text may have meant others than were taken.
    pub sure: bool,
    /// Whether a word that declares one was faulty, so that a name may be missing.
    pub doubted: bool,
    /// How many were not taken; the numbers may go on behind them.
    passed: usize,
    too_many: bool,
}

impl Ordered {
    pub fn new(one: &'static str, most: usize) -> Ordered {
        Ordered {
            one,
            most,
            lines: Vec::new(),
            sure: true,
            doubted: false,
            passed: 0,
            too_many: false,
        }
    }

    pub fn count(&self) -> usize {
        self.lines.len()
    }

    /// The next one.
    pub fn next(&mut self, place: Place, faults: &mut Faults) -> usize {
        if self.count() >= self.most && !self.too_many {
            self.too_many = true;
            self.sure = false;
            faults.tell(place, format!("a query has at most {} {}s", self.most, self.one));
        }
        self.lines.push(place.line);
        self.count() - 1
    }

    /// One that is said twice and is not taken again.
    pub fn again(&mut self) {
        self.sure = false;
        self.passed += 1;
    }

    /// A statement that may have declared some, nobody knows how many.
    pub fn lost(&mut self) {
        self.sure = false;
        self.passed += self.most;
    }

    /// The one of this number, which must be the next.
    pub fn numbered(&mut self, word: Word, faults: &mut Faults) -> Option<usize> {
        let (one, next) = (self.one, self.count());
        let number = word.text.parse().unwrap_or(usize::MAX);
        if let Some(line) = self.lines.get(number) {
            let reason =
                format!("{one} {number} is there already, in line {line}; {one} {next} comes next");
            faults.tell(word.place, reason);
            self.again();
            return None;
        }
        let ahead = number - next;
        if ahead > self.passed {
            let shown = quoted(word.text);
            faults.tell(word.place, format!("{one} {next} comes next, not {shown}"));
            self.sure = false;
        }
        self.passed -= ahead.min(self.passed);
        if number < self.most {
            self.lines.resize(number, word.place.line);
        }
        Some(self.next(word.place, faults))
    }

    /// Those from the first to the last.
    pub fn span(&mut self, ends: [Called; 2], faults: &mut Faults) -> Vec<usize> {
        let [Some(first), Some(last)] = ends else {
            self.lost();
            return Vec::new();
        };
        if let Some(name) = [first, last].into_iter().find(|word| !is_number(word.text)) {
            let reason = format!("expected a number beside 'to', found {}", quoted(name.text));
            faults.tell(name.place, reason);
            self.lost();
            return Vec::new();
        }
        let mut taken: Vec<usize> = self.numbered(first, faults).into_iter().collect();
        let number = last.text.parse().unwrap_or(usize::MAX);
        if taken.first().is_some_and(|&first| number < first) {
            faults.tell(last.place, format!("the last {} comes before the first", self.one));
            self.sure = false;
        }
        while self.count() <= number && self.count() <= self.most {
            taken.push(self.next(last.place, faults));
        }
        taken
    }
}
