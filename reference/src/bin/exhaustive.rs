//! `exhaustive < FILE`: the cheapest cost of all allowed plans of a query, by searching
//! the plan rules. A query that is too large to search ends it with 3.

use std::io::{self, Read};
use std::process::ExitCode;

use reference::stated::Form;
use reference::{decode, exhaustive};

const TOO_LARGE: u8 = 3;

fn main() -> io::Result<ExitCode> {
    let mut file = Vec::new();
    io::stdin().read_to_end(&mut file)?;
    let query = match decode::decode(&file, Form::Sizes) {
        Ok(stated) => stated.query,
        Err(refusal) => {
            println!("refused {}", refusal.number());
            return Ok(ExitCode::SUCCESS);
        }
    };
    match exhaustive::cheapest(&query) {
        Ok(Some(cost)) => println!("cheapest {}", cost.0),
        Ok(None) => println!("no plan"),
        Err(too_large) => {
            eprintln!("exhaustive: {too_large}");
            return Ok(ExitCode::from(TOO_LARGE));
        }
    }
    Ok(ExitCode::SUCCESS)
}
