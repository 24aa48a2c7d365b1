//! The lines of the repository's README under 'From Rust', compiled and run: what stands between the two marks below is held to its text.

use std::path::Path;

// From here on.
use viaductle::sd::{OffsetTable, SdSlice};
use viaductle::Refusal;

fn show(payload: &[u8]) -> Result<(), Refusal> {
    let mut table = OffsetTable::new();
    let sd = SdSlice::from_slice(payload, &mut table)?; // a Refusal has a number, values and a text
    for entry in sd.entries_with_options() {
        let entry = entry?;
        println!("service {:#06x}", entry.entry().service_id());
        for option in entry.options_run_1() {
            println!("  {option:?}");
        }
    }
    Ok(())
}
// Up to here.

mod common;

#[test]
fn they_are_the_lines_above() {
    let readme = Path::new(env!("CARGO_MANIFEST_DIR")).join("../../README.md");
    let Ok(readme) = std::fs::read_to_string(readme) else {
        println!("not in the repository: nothing to compare with");
        return;
    };
    let (_, part) = readme.split_once("\n## From Rust\n").unwrap();
    let part = part.split("\n## ").next().unwrap();
    let code: Vec<&str> = part
        .lines()
        .skip_while(|line| line.is_empty())
        .take_while(|line| line.is_empty() || line.starts_with("    "))
        .map(|line| line.strip_prefix("    ").unwrap_or(line))
        .collect();
    let (_, above) = include_str!("readme.rs")
        .split_once("// From here on.\n")
        .unwrap();
    let (above, _) = above.split_once("// Up to here.\n").unwrap();
    assert_eq!(code.join("\n").trim_end(), above.trim_end());
}

#[test]
fn they_run() {
    let whole = common::hex(common::WHOLE);
    assert_eq!(show(&whole), Ok(()));
    assert_eq!(show(&whole[..39]), Err(Refusal::UnexpectedEndOfSlice(40)));
}
