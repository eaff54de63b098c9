//! What the proved programs print, read: the lines of `calls`, and the listing of `plan`.

use reference::planner::Loaded;
use reference::room::Figures;

/// A call's number of refusal, and the place where it has one.
#[derive(Clone, Copy, Debug, PartialEq, Eq)]
pub struct Refused {
    pub number: u64,
    pub place: Option<u64>,
}

/// What an admitted solve answers.
#[derive(Clone, Debug, PartialEq, Eq)]
pub enum Solved {
    Plan { cost: u64, trials: u64, plan: Vec<u8> },
    NoRoute { trials: u64 },
}

/// A refusal, or what the words say where the call is admitted; nothing where they are neither.
pub fn read<T>(
    line: &str,
    admitted: impl FnOnce(&[&str]) -> Option<T>,
) -> Option<Result<T, Refused>> {
    let words: Vec<&str> = line.split(' ').collect();
    match words[..] {
        ["refused", number] => Some(Err(Refused { number: number.parse().ok()?, place: None })),
        ["refused", number, place] => {
            let place = Some(place.parse().ok()?);
            Some(Err(Refused { number: number.parse().ok()?, place }))
        }
        _ => admitted(&words).map(Ok),
    }
}

pub fn load(words: &[&str]) -> Option<Loaded> {
    match words {
        ["load", relations, subqueries] => Some(Loaded {
            relations: relations.parse().ok()?,
            subqueries: subqueries.parse().ok()?,
        }),
        _ => None,
    }
}

pub fn link(words: &[&str]) -> Option<()> {
    (words == ["link"]).then_some(())
}

/// Of the whole output only the plan is taken.
pub fn solve(words: &[&str]) -> Option<Solved> {
    match words {
        ["solved", cost, length, trials, output] => {
            let digits = length.parse::<usize>().ok()?.checked_mul(2)?;
            Some(Solved::Plan {
                cost: cost.parse().ok()?,
                trials: trials.parse().ok()?,
                plan: bytes(output.get(..digits)?)?,
            })
        }
        ["no-route", trials] => Some(Solved::NoRoute { trials: trials.parse().ok()? }),
        _ => None,
    }
}

/// The lines behind a solve's: that all cells and bytes stayed as they were that must.
pub fn after_solve(solved: &Result<Solved, Refused>) -> &'static [&'static str] {
    match solved {
        Ok(Solved::Plan { .. }) => &["cells OK"],
        _ => &["cells OK", "output OK"],
    }
}

/// The cost.
pub fn check(words: &[&str]) -> Option<u64> {
    match words {
        ["check", cost] => cost.parse().ok(),
        _ => None,
    }
}

pub fn room(words: &[&str]) -> Option<Figures> {
    match words {
        ["room", subqueries, cells, trials] => Some(Figures {
            subqueries: subqueries.parse().ok()?,
            cells: cells.parse().ok()?,
            trials: trials.parse().ok()?,
        }),
        _ => None,
    }
}

/// The listing of the program `plan`.
pub fn listing(printed: &str) -> Option<Result<Solved, Refused>> {
    let mut lines = printed.strip_suffix('\n')?.split('\n');
    let heading: Vec<&str> = lines.next()?.split(' ').collect();
    let steps: Vec<[u8; 2]> = lines.map(step).collect::<Option<_>>()?;
    match heading[..] {
        ["plan", count, "cost", cost, "trials", trials] => {
            let count: u8 =
                count.parse().ok().filter(|&count| usize::from(count) == steps.len())?;
            Some(Ok(Solved::Plan {
                cost: cost.parse().ok()?,
                trials: trials.parse().ok()?,
                plan: [vec![count], steps.concat()].concat(),
            }))
        }
        ["no", "route", "trials", trials] if steps.is_empty() => {
            Some(Ok(Solved::NoRoute { trials: trials.parse().ok()? }))
        }
        ["refused", number] if steps.is_empty() => {
            Some(Err(Refused { number: number.parse().ok()?, place: None }))
        }
        _ => None,
    }
}

/// A line of the listing: kind and argument.
fn step(line: &str) -> Option<[u8; 2]> {
    let (word, argument) = line.split_once(' ')?;
    let kind = match word {
        "load" => 1,
        "send" => 2,
        "join" => 3,
        _ => return None,
    };
    Some([kind, argument.parse().ok()?])
}

fn bytes(hex: &str) -> Option<Vec<u8>> {
    let byte = |place: usize| u8::from_str_radix(hex.get(place..place + 2)?, 16).ok();
    (0..hex.len()).step_by(2).map(byte).collect()
}
