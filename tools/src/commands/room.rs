//! `fanchuki room`: how heavy a query will be, by the proved call.

use std::ffi::OsString;

use reference::limits::{MOST_RELATIONS, MOST_SITES};
use reference::names::Names;
use reference::room::{self, Draft, Figures};
use reference::tree::Join;

use crate::commands::Command;
use crate::done::Done;
use crate::failure::Failure;
use crate::given;
use crate::proved::calls::Calls;
use crate::text;
use crate::wording;
use crate::words::Words;

pub const COMMAND: Command = Command { name: "room", help: HELP, run };

const HELP: &str = "\
tells the subqueries, cells and trials of a draft

usage: fanchuki room FILE

FILE is a draft, which has its sites, relations and joins and may leave out the rest, or a whole
query. Each subquery will need its size; solve will need so many cells, and answer so many
trials. Of a packed file only the number of sites and of relations and the joins are looked at,
whatever stands in the other fields and behind the joins.
";

fn run(words: &[OsString]) -> Result<Done, Failure> {
    let words = Words::take(words, &[], &[])?;
    let [file] = words.just("the FILE")?;
    let bytes = given::read(file)?;
    let shown = given::shown(file);
    let draft = if given::is_packed(&bytes) {
        packed(&bytes).ok_or_else(|| {
            let length = bytes.len();
            Failure::Refused(format!("{shown}: it ends at offset {length}, before its joins do"))
        })?
    } else {
        text::draft(&text::decoded(&bytes, &shown)?)
            .map_err(|faults| text::refused(&shown, &bytes, &faults))?
    };
    let not_a_text = given::not_a_text(&bytes);
    figures(&draft, &Names::default()).map_err(|failure| match (failure, not_a_text) {
        (Failure::Refused(reason), Some(why)) => Failure::Refused(format!("{reason}\n{why}")),
        (failure, _) => failure,
    })
}

/// The counts and the joins of a file, as far as it goes to the end of these. A count above its
/// limit is enough to be refused: what stands behind it can't be told.
fn packed(file: &[u8]) -> Option<Draft> {
    let sites = *file.first()?;
    let refused = |relations: u8| {
        Some(Draft { relations: relations.into(), sites: sites.into(), joins: Vec::new() })
    };
    if usize::from(sites) > MOST_SITES {
        return refused(1);
    }
    let relations_at = 1 + 9 * usize::from(sites);
    let relations = *file.get(relations_at)?;
    if usize::from(relations) > MOST_RELATIONS {
        return refused(relations);
    }
    let joins_at = relations_at + 1 + 2 * usize::from(relations);
    let joins = usize::from(*file.get(joins_at)?);
    let joins = file.get(joins_at + 1..joins_at + 1 + 2 * joins)?.to_vec();
    Some(Draft { relations: relations.into(), sites: sites.into(), joins })
}

fn figures(draft: &Draft, names: &Names) -> Result<Done, Failure> {
    let proved = Calls::start()?.room(draft)?;
    match (proved, room::room(draft)) {
        (Ok(proved), Ok(own)) if proved == own => {
            let Figures { subqueries, cells, trials } = proved;
            let printed = format!("subqueries {subqueries}\ncells {cells}\ntrials {trials}\n");
            Ok(Done::printing(printed))
        }
        (Err(proved), Err(own)) if proved.number == own.number() => {
            let reason = reason(draft, names, proved.number);
            Err(Failure::Refused(format!("refused {}: {reason}", proved.number)))
        }
        (proved, own) => {
            let proved = told(proved.map_err(|refused| refused.number));
            let own = told(own.map_err(|refusal| refusal.number()));
            Err(Failure::Fault(format!(
                "the proved room answers {proved}, the tool comes to {own}"
            )))
        }
    }
}

fn told(answer: Result<Figures, u64>) -> String {
    match answer {
        Ok(Figures { subqueries, cells, trials }) => {
            format!("{subqueries} subqueries, {cells} cells and {trials} trials")
        }
        Err(number) => format!("refused {number}"),
    }
}

fn reason(draft: &Draft, names: &Names, number: u64) -> String {
    let (n, s, pairs) = (draft.relations as usize, draft.sites, draft.joins.len() / 2);
    match number {
        2 if !(1..=MOST_RELATIONS).contains(&n) => {
            format!("{n} relations: must be 1 to {MOST_RELATIONS}")
        }
        2 if !(1..=MOST_SITES as u64).contains(&s) => {
            format!("{s} sites: must be 1 to {MOST_SITES}")
        }
        2 => {
            let (joins, relations) =
                (wording::counted(pairs, "join"), wording::counted(n, "relation"));
            format!("{joins} for {relations}: must be {}, one fewer", n - 1)
        }
        3 => out_of_range(draft),
        _ => {
            let join = |ends: &[u8]| Join { first: ends[0].into(), second: ends[1].into() };
            let joins: Vec<Join> = draft.joins.chunks_exact(2).map(join).collect();
            wording::not_reached(names, &joins, n)
        }
    }
}

fn out_of_range(draft: &Draft) -> String {
    let outside = |&(_, &relation): &(usize, &u8)| u64::from(relation) >= draft.relations;
    let named = draft.joins.iter().enumerate().find(outside);
    named.map_or_else(String::new, |(place, relation)| {
        let must = wording::range(0, draft.relations - 1);
        format!("join {} names relation {relation}: must be {must}", place / 2)
    })
}
