//! Plays a file of cases by the proved library or by the reference, and prints it anew with the replies and changes as they are:
//! state_cases library|reference FILE. How many cases and calls it has stands on standard error.

use comparison::case_file::{play, Host, Played};
use comparison::host_library::{by_reference, call_on};
use std::process::ExitCode;
use std::{env, fs};

fn played(host: &str, path: &str) -> Result<(), String> {
    let host: Host = match host {
        "library" => call_on,
        "reference" => by_reference,
        _ => return Err(format!("`{host}` stands where `library` or `reference` could")),
    };
    let file = fs::read_to_string(path).map_err(|why| format!("{path}: {why}"))?;
    let Played { text, cases, calls } = play(host, &file).map_err(|why| format!("{path}:{why}"))?;
    print!("{text}");
    eprintln!("{cases} cases, {calls} calls");
    Ok(())
}

fn main() -> ExitCode {
    let arguments: Vec<String> = env::args().skip(1).collect();
    let ended = match &arguments[..] {
        [host, path] => played(host, path),
        _ => Err(String::from("usage: state_cases library|reference FILE")),
    };
    match ended {
        Ok(()) => ExitCode::SUCCESS,
        Err(why) => {
            eprintln!("state_cases: {why}");
            ExitCode::FAILURE
        }
    }
}
