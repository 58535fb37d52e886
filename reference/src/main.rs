//! `reference [FILE]` runs a script from the file, or from standard input
//! where no file is named.

use std::io::{self, Read, Write};
use std::process::ExitCode;

fn main() -> ExitCode {
    let mut arguments = std::env::args_os().skip(1);
    let file = arguments.next();
    if arguments.next().is_some() {
        eprintln!("usage: reference [FILE]");
        return ExitCode::from(2);
    }
    match read_input(file).and_then(|input| run(&input)) {
        Ok(()) => ExitCode::SUCCESS,
        Err(error) => {
            eprintln!("reference: {error}");
            ExitCode::FAILURE
        }
    }
}

fn read_input(file: Option<std::ffi::OsString>) -> io::Result<Vec<u8>> {
    if let Some(file) = file {
        return std::fs::read(file);
    }
    let mut input = Vec::new();
    io::stdin().lock().read_to_end(&mut input)?;
    Ok(input)
}

fn run(input: &[u8]) -> io::Result<()> {
    let mut output = io::BufWriter::new(io::stdout().lock());
    reference::script::run(input, &mut output);
    output.flush()
}
