//! `model_plan [METHOD] < FILE`: the listing of `plan`, by the model. A method's name
//! makes it one of the planners that nearly work.

use std::io::{self, Read};

use reference::compare::arguments;
use reference::listing;

fn main() -> io::Result<()> {
    let Some(method) = arguments::method() else {
        eprintln!("usage: model_plan [METHOD] < FILE");
        std::process::exit(2);
    };
    let mut file = Vec::new();
    io::stdin().read_to_end(&mut file)?;
    print!("{}", listing::listing(&file, method));
    Ok(())
}
