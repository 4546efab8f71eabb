//! The stored table of right and broken sheets: the same counts, or the same number, line and layer of the fault.

use std::fs;
use std::path::Path;

use baseline::{Layer, Sheet};

fn said(text: &[u8]) -> String {
    match Sheet::read(text) {
        Ok(sheet) => {
            let sets: usize = sheet.slaves.iter().map(|slave| slave.sets.len()).sum();
            format!("right slaves={} sets={sets}", sheet.slaves.len())
        }
        Err(fault) => {
            let layer = match fault.layer {
                Layer::Digits => "digits",
                Layer::Line => "line",
                Layer::Sheet => "sheet",
            };
            format!("refused={} line={} layer={layer}", fault.number, fault.line)
        }
    }
}

#[test]
fn stored_sheets() {
    let cases = Path::new(env!("CARGO_MANIFEST_DIR")).join("../../crates/sheetcases");
    let stored = fs::read_to_string(cases.join("stdout")).unwrap();
    let mut count = 0;
    for line in stored.lines().filter(|line| !line.starts_with(' ')) {
        let Some((name, wanted)) = line.split_once(' ') else { continue };
        let Ok(text) = fs::read(cases.join("data").join(name).with_extension("txt")) else { continue };
        let wanted = wanted.trim_start();
        let wanted = wanted.split(" rewritten=").next().unwrap_or(wanted);
        assert_eq!(said(&text), wanted, "{name}");
        count += 1;
    }
    assert!(count >= 60, "only {count} stored sheets were found");
}
