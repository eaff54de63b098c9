//! A walk over the fields of a packed file, by docs/FORMAT.md, to the first that is refused.

use reference::limits::{
    MOST_DIVISOR, MOST_FIXED, MOST_RATE, MOST_RELATIONS, MOST_ROWS, MOST_SITES, MOST_SIZE,
};
use reference::names::Names;
use reference::query::Query;
use reference::refusal::Refusal;
use reference::sets;
use reference::stated::Form;
use reference::tree::{self, Join};

use crate::packed::fields::Fields;
use crate::packed::refused::RefusedFile;
use crate::wording;

/// Nothing where no field is refused.
pub fn walk(file: &[u8], form: Form) -> Result<(), RefusedFile> {
    let mut fields = Fields { file, offset: 0 };
    let sites = fields.count("Sites", 1, [1, MOST_SITES], "")?;
    for site in 0..sites {
        let site = format!("Sites, site {site}");
        fields.flag(&format!("{site}, may-join flag"))?;
        amounts(&mut fields, &site, "join ")?;
    }
    let relations = fields.count("Relations", 1, [1, MOST_RELATIONS], "")?;
    for relation in 0..relations {
        fields.number(&format!("Relations, relation {relation}, home site"), sites)?;
        fields.flag(&format!("Relations, relation {relation}, index flag"))?;
    }
    let joins = joins(&mut fields, relations)?;
    match form {
        Form::Sizes => sizes(&mut fields, &joins, relations)?,
        Form::Rows => row_counts(&mut fields, relations)?,
    }
    let lines = sites * (sites - 1);
    let why = format!(", each way between any two of {}", wording::counted(sites, "site"));
    fields.count("Lines", 1, [lines, lines], &why)?;
    for (sender, receiver) in Query::line_ends(sites) {
        let line = format!("Lines, line {sender} to {receiver}");
        fields.flag(&format!("{line}, open flag"))?;
        amounts(&mut fields, &line, "")?;
    }
    fields.count("Delivery", 1, [1, 1], "")?;
    fields.number("Delivery, query site", sites)?;
    fields.end()
}

fn amounts(fields: &mut Fields, item: &str, kind: &str) -> Result<(), RefusedFile> {
    fields.value(&format!("{item}, {kind}fixed amount"), 4, [0, MOST_FIXED])?;
    fields.value(&format!("{item}, {kind}rate"), 4, [0, MOST_RATE]).map(|_| ())
}

fn joins(fields: &mut Fields, relations: usize) -> Result<Vec<Join>, RefusedFile> {
    let why = format!(", one fewer than the {}", wording::counted(relations, "relation"));
    let count = fields.count("Joins", 1, [relations - 1, relations - 1], &why)?;
    let offset = fields.offset;
    let mut joins = Vec::new();
    for join in 0..count {
        let first = fields.number(&format!("Joins, join {join}, first relation"), relations)?;
        let second = fields.number(&format!("Joins, join {join}, second relation"), relations)?;
        joins.push(Join { first, second });
    }
    let everything = sets::everything(relations);
    if tree::grown(&joins, 0, everything, None) != everything {
        let why = wording::not_reached(&Names::default(), &joins, relations);
        let reason = format!("Joins, offset {offset}: {why}");
        return Err(RefusedFile::new(Refusal::NotReached, reason));
    }
    Ok(joins)
}

fn sizes(fields: &mut Fields, joins: &[Join], relations: usize) -> Result<(), RefusedFile> {
    let subqueries = tree::subqueries(joins, relations);
    let why = ", a size for each subquery that the joins make";
    fields.count("Sizes", 2, [subqueries.len(), subqueries.len()], why)?;
    for subquery in subqueries {
        let what = format!("Sizes, size of {}", Names::default().set(subquery));
        fields.value(&what, 4, [0, MOST_SIZE])?;
    }
    Ok(())
}

fn row_counts(fields: &mut Fields, relations: usize) -> Result<(), RefusedFile> {
    fields.count("Rows", 1, [relations, relations], ", as many as there are relations")?;
    for relation in 0..relations {
        fields.value(&format!("Rows, rows of {relation}"), 4, [1, MOST_ROWS])?;
    }
    let joins = relations - 1;
    fields.count("Divisors", 1, [joins, joins], ", as many as there are joins")?;
    for join in 0..joins {
        fields.value(&format!("Divisors, divisor of join {join}"), 4, [1, MOST_DIVISOR])?;
    }
    Ok(())
}
