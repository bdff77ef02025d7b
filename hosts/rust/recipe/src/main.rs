//! The command-line tool `recipe`.

use std::env;
use std::ffi::OsString;
use std::process::ExitCode;

use recipe::{commands, files};

fn main() -> ExitCode {
    let arguments: Vec<OsString> = env::args_os().skip(1).collect();
    match commands::dispatch(&arguments) {
        Ok(status) => ExitCode::from(status),
        Err(failure) => {
            if !failure.message.is_empty() {
                files::tell(failure.shown());
            }
            ExitCode::from(failure.status)
        }
    }
}
