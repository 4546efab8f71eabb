//! The proved library beside the baseline.
//!
//!     times compare FOLDER   do both print what is stored, for each folder in it with sheet.txt, session.txt and stdout?
//!     times measure          nanoseconds of the calls

mod plain;
mod proved;
mod side;
mod texts;

use std::error::Error;
use std::hint::black_box;
use std::path::Path;
use std::process::ExitCode;
use std::time::Instant;
use std::{env, fs};

use plain::PLAIN;
use proved::PROVED;
use side::Side;

const SIDES: [Side; 2] = [PROVED, PLAIN];
const REPEATS: usize = 25;
const SIZES: [usize; 3] = [1, 16, 126];
const TICKS: u32 = 60_000;
const HEARTBEATS: u32 = 100_000;
const WORKS: u32 = 40_000;
const READINGS: u32 = 200;
const _: () = assert!(TICKS < texts::HB);

fn main() -> ExitCode {
    let args: Vec<String> = env::args().skip(1).collect();
    let done = match args.iter().map(String::as_str).collect::<Vec<_>>()[..] {
        ["compare", folder] => compare(Path::new(folder)),
        ["measure"] => measure(),
        _ => Err("usage: times compare FOLDER | times measure".into()),
    };
    match done {
        Ok(()) => ExitCode::SUCCESS,
        Err(error) => {
            eprintln!("times: {error}");
            ExitCode::FAILURE
        }
    }
}

// Comparing

fn compare(folder: &Path) -> Result<(), Box<dyn Error>> {
    let mut sessions = 0;
    for place in fs::read_dir(folder)? {
        let place = place?.path();
        let sheet = fs::read(place.join("sheet.txt"))?;
        let session = fs::read(place.join("session.txt"))?;
        let wanted = fs::read(place.join("stdout"))?;
        for side in &SIDES {
            if report(side, &sheet, &session) != wanted {
                return Err(format!("{} differs: {}", side.name, place.display()).into());
            }
        }
        sessions += 1;
    }
    println!("{sessions} sessions, 0 differences");
    Ok(())
}

fn report(side: &Side, sheet: &[u8], session: &[u8]) -> Vec<u8> {
    let mut out = vec![0; 1 << 16];
    loop {
        let length = (side.report)(sheet, session, &mut out);
        if length <= out.len() {
            out.truncate(length);
            return out;
        }
        out.resize(length, 0);
    }
}

// Measuring

fn measure() -> Result<(), Box<dyn Error>> {
    println!("{:<28} {:>6} {:>12} {:>12} {:>7}", "ns a call", "slaves", PROVED.name, PLAIN.name, "ratio");
    for slaves in SIZES {
        let sheet = texts::sheet(slaves, slaves.min(32));
        let session = texts::all_passed(&sheet);
        let (sheet, session) = (sheet.as_bytes(), session.as_bytes());
        show("tick", slaves, per_call(TICKS, |side, count| (side.ticks)(sheet, session, count))?);
        show("heartbeat heard", slaves, per_call(HEARTBEATS, |side, count| (side.heartbeats)(sheet, session, black_box(&[0x05]), count))?);
        show("work, nothing due", slaves, per_call(WORKS, |side, count| (side.works)(sheet, session, count))?);
    }
    let sheet = texts::sheet(126, 256);
    let what = format!("sheet read, {} bytes", sheet.len());
    show(&what, 126, per_call(READINGS, |side, count| (side.readings)(sheet.as_bytes(), count))?);
    Ok(())
}

fn show(what: &str, slaves: usize, [proved, plain]: [f64; 2]) {
    println!("{what:<28} {slaves:>6} {proved:>12.1} {plain:>12.1} {:>7.2}", proved / plain);
}

/// Nanoseconds of a call on each side: the best time with the calls less the best without them. The sides take turns.
fn per_call(count: u32, run: impl Fn(&Side, u32) -> u32) -> Result<[f64; 2], String> {
    let mut best = [[f64::INFINITY; 2]; 2];
    for _ in 0..REPEATS {
        for (side, best) in SIDES.iter().zip(&mut best) {
            for (calls, best) in [0, count].into_iter().zip(best) {
                let begin = Instant::now();
                let answer = run(side, calls);
                *best = best.min(begin.elapsed().as_nanos() as f64);
                if answer != calls {
                    return Err(format!("{}: {answer} of {calls} calls answered as they should", side.name));
                }
            }
        }
    }
    Ok(best.map(|[without, with]| (with - without) / f64::from(count)))
}
