//! Every public item of the crate has an example in its documentation, which `cargo test` runs.

use std::fs;
use std::path::Path;

const PUBLIC: [&str; 5] = ["pub fn ", "pub struct ", "pub enum ", "pub const ", "pub type "];

#[test]
fn every_public_item_has_an_example() {
    let mut items = 0;
    let source = Path::new(env!("CARGO_MANIFEST_DIR")).join("src");
    let entries = ["", "engine"].into_iter().flat_map(|folder| fs::read_dir(source.join(folder)).unwrap());
    for path in entries.map(|entry| entry.unwrap().path()).filter(|path| is_library(path)) {
        let file = path.display();
        let text = fs::read_to_string(&path).unwrap();
        let lines: Vec<&str> = text.lines().map(str::trim).collect();
        let public = |line: &str| PUBLIC.iter().any(|public| line.starts_with(public));
        for (i, line) in lines.iter().enumerate().filter(|(_, line)| public(line)) {
            let above = lines[..i].iter().rev().take_while(|line| line.starts_with("///") || line.starts_with("#["));
            assert!(above.filter(|line| **line == "/// ```").count() == 2, "{file}, line {}: {line}", i + 1);
            items += 1;
        }
    }
    assert!(items > 100, "{items} items");
}

/// Not the macro that makes the declarations, nor what is hidden.
fn is_library(path: &Path) -> bool {
    let name = path.file_name().unwrap().to_str().unwrap();
    path.is_file() && !["calls.rs", "sample.rs"].contains(&name)
}
