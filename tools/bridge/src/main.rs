//! A bridge from vocabularies to the reasoners FaCT++ and Konclude: their input, their answers beside the library's,
//! and the times of all three. README.md says how it is run.

mod commands;
mod compare;
mod customs;
mod draw;
mod emit;
mod files;
mod hierarchy;
mod making;
mod meaning;
mod output;
mod process;
mod question;
mod race;
mod random;
mod reasoner;
mod report;
mod taxonomy;

use std::process::ExitCode;

fn main() -> ExitCode {
    match commands::run(std::env::args_os().skip(1).collect()) {
        Ok(status) => status.into(),
        Err(failure) => {
            if !failure.message.is_empty() {
                output::complain(&format!("bridge: {}", failure.message));
            }
            failure.status.into()
        }
    }
}
