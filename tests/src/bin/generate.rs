//! Prints the script of a seed: `generate SEED`.

use std::io::Write;
use std::process::ExitCode;

fn main() -> ExitCode {
    let arguments: Vec<String> = std::env::args().skip(1).collect();
    let [seed] = arguments.as_slice() else {
        eprintln!("usage: generate SEED");
        return ExitCode::from(2);
    };
    let Ok(seed) = seed.parse() else {
        eprintln!("generate: {seed} is not a seed");
        return ExitCode::from(2);
    };
    match std::io::stdout().write_all(&trials::generate::script(seed)) {
        Ok(()) => ExitCode::SUCCESS,
        Err(error) => {
            eprintln!("generate: {error}");
            ExitCode::from(2)
        }
    }
}
