//! Compares the library with the peer, and measures both.

mod c;
mod cases;
mod compare;
mod form;
mod functions;
mod header;
mod instructions;
mod measure;
mod module;
mod random;

use form::Form;
use functions::Header;
use module::Module;
use std::process::ExitCode;

const USAGE: &str =
    "usage: bench header                       structs, constants, version and texts of header and module
       bench compare [CALLS [SEED]]       calls in step; all that can come up must come up
       bench compare-rust [CALLS [SEED]]  the same through the Rust module
       bench sample [CALLS [SEED]]        as compare, but at random alone, and not all must come up
       bench sample-rust [CALLS [SEED]]   the same through the Rust module
       bench measure                      nanoseconds per call
       bench instructions                 instructions per call, by valgrind
       bench count CASE KEYS WHO CALLS    one case, for callgrind; WHO is library, peer or library-by-rust

CALLS counts the random calls on states. The calls over all lengths and places, and those on parts, frames,
rows and names, come with them.";

fn number(arguments: &[String], at: usize, otherwise: u64) -> Option<u64> {
    arguments.get(at).map_or(Some(otherwise), |text| text.parse().ok())
}

/// Whether the command was understood and went well.
fn obey(arguments: &[String]) -> Option<bool> {
    let compare = |form: &'static dyn Form, all| {
        let (calls, seed) = (number(arguments, 2, 1_000_000)?, number(arguments, 3, 12)?);
        Some(compare::run(form, calls, seed, all))
    };
    match arguments.get(1)?.as_str() {
        "header" => Some(header::check()),
        "compare" => compare(&Header, true),
        "compare-rust" => compare(&Module, true),
        "sample" => compare(&Header, false),
        "sample-rust" => compare(&Module, false),
        "measure" => Some(measure::run()),
        "instructions" => Some(instructions::run()),
        "count" => {
            let calls = number(arguments, 5, 1)?;
            Some(instructions::count(arguments.get(2)?, arguments.get(3)?, arguments.get(4)?, calls))
        }
        _ => None,
    }
}

fn main() -> ExitCode {
    let arguments: Vec<String> = std::env::args().collect();
    match obey(&arguments) {
        Some(true) => ExitCode::SUCCESS,
        Some(false) => ExitCode::FAILURE,
        None => {
            eprintln!("{USAGE}");
            ExitCode::FAILURE
        }
    }
}
