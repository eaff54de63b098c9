//! What the statements of a text say together, each part by itself.

use reference::names::Names;
use reference::query::{Line, Relation, Site};

use crate::text::fault::{Faults, Place};
use crate::text::once::Once;
use crate::text::register::{Kind, Register};
use crate::text::sizing::Sizing;
use crate::text::statement::{Said, Statement, Terms, Which};

/// A join's relations with the places of the words for them.
pub type Ends = [Option<(usize, Place)>; 2];

pub struct Gathered<'t> {
    pub register: Register<'t>,
    pub names: Names,
    /// By number, with nothing for what was faulty or left out.
    pub sites: Vec<Option<Site>>,
    pub relations: Vec<Option<Relation>>,
    /// With the number and the place of the statement.
    pub joins: Vec<(usize, Place, Ends)>,
    /// The ends of the statements that are bare, as in a draft, and what each leaves out.
    pub bare: Vec<(Place, &'static str)>,
    pub sizing: Sizing,
    pub every_line: Once<(), Line>,
    pub lines: Once<(usize, usize), Line>,
    pub delivery: Once<(), usize>,
    /// Behind the last statement.
    pub end: Place,
}

/// First all that is declared, then all that refers to it.
pub fn gather<'t>(statements: &[Statement<'t>], faults: &mut Faults) -> Gathered<'t> {
    let end = statements.last().map_or(Place { line: 1, column: 1 }, |last| last.end);
    let mut gathered = Gathered {
        register: Register::new(),
        names: Names::default(),
        sites: Vec::new(),
        relations: Vec::new(),
        joins: Vec::new(),
        bare: Vec::new(),
        sizing: Sizing::new(),
        every_line: Once::new(),
        lines: Once::new(),
        delivery: Once::new(),
        end,
    };
    let declared: Vec<Vec<usize>> =
        statements.iter().map(|statement| gathered.declare(statement, faults)).collect();
    gathered.names = gathered.register.names();
    for (statement, numbers) in statements.iter().zip(&declared) {
        gathered.refer(statement, numbers, faults);
    }
    gathered
}

impl<'t> Gathered<'t> {
    fn declare(&mut self, statement: &Statement<'t>, faults: &mut Faults) -> Vec<usize> {
        let (register, place) = (&mut self.register, statement.place);
        match &statement.said {
            Said::Sites { which, terms } => {
                let numbers = register.declare(Kind::Site, which, place, faults);
                if matches!(terms, Terms::Bare) && !numbers.is_empty() {
                    self.bare.push((statement.end, "'may join' or 'may not join'"));
                }
                let site = if let Terms::Told(site) = terms { Some(*site) } else { None };
                put(&mut self.sites, &numbers, site);
                numbers
            }
            Said::Relations { which, terms } => {
                let numbers = register.declare(Kind::Relation, which, place, faults);
                if matches!(terms, Terms::Bare) && !numbers.is_empty() {
                    self.bare.push((statement.end, "'at' and the home"));
                }
                numbers
            }
            Said::Join { number, .. } => {
                let which = number.map_or(Which::Unread, |one| Which::List(vec![Some(one)]));
                register.declare(Kind::Join, &which, place, faults)
            }
            Said::Unread(words) => {
                register.leave_unread(words);
                Vec::new()
            }
            _ => Vec::new(),
        }
    }
}

/// The value for each of these numbers.
pub fn put<T: Copy>(all: &mut Vec<Option<T>>, numbers: &[usize], value: Option<T>) {
    for &number in numbers {
        if number >= all.len() {
            all.resize(number + 1, None);
        }
        all[number] = value;
    }
}
