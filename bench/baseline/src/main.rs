//! Runs session.txt on sheet.txt of this folder, or the two files given as arguments (sheet first).

use std::env;
use std::error::Error;
use std::ffi::OsString;
use std::fs;
use std::io::{self, BufWriter, Write};
use std::path::Path;
use std::process::ExitCode;

fn main() -> ExitCode {
    match run() {
        Ok(()) => ExitCode::SUCCESS,
        Err(error) => {
            eprintln!("baseline: {error}");
            ExitCode::FAILURE
        }
    }
}

fn run() -> Result<(), Box<dyn Error>> {
    let args: Vec<OsString> = env::args_os().skip(1).collect();
    let (sheet, session) = match args.as_slice() {
        [] => (read("sheet.txt")?, read("session.txt")?),
        [sheet, session] => (read(sheet)?, read(session)?),
        _ => return Err("give no arguments, or SHEET and SESSION".into()),
    };
    let mut out = BufWriter::with_capacity(1 << 16, io::stdout().lock());
    baseline::session::run(&sheet, &session, &mut out)?;
    out.flush()?;
    Ok(())
}

fn read(path: impl AsRef<Path>) -> Result<Vec<u8>, String> {
    let path = path.as_ref();
    fs::read(path).map_err(|error| format!("{}: {error}", path.display()))
}
