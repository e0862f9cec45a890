//! The command `mipsuqal`: the live journey card from files, and the handlebar panel in a terminal.
mod args;
mod fault;
mod input;
mod json;
mod mapped;
mod panel;
mod run;
mod store;

use std::process::ExitCode;

fn main() -> ExitCode {
    let words: Vec<_> = std::env::args().skip(1).collect();
    let json = words.iter().any(|word| word == "--json");
    let done = args::parse(&words).and_then(|asked| run::run(&asked));
    match done {
        Ok(()) => ExitCode::SUCCESS,
        Err(fault) => {
            fault.tell(json);
            ExitCode::from(fault.status())
        }
    }
}
