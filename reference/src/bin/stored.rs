// Writes the stored cases to the file named.
//
// Usage: stored FILE

use reference::stored::{encode, stored_groups, GROUPS};
use std::process::exit;

fn main() {
    let Some(path) = std::env::args().nth(1) else {
        println!("usage: stored FILE");
        exit(2);
    };
    let groups = stored_groups();
    let bytes = encode(&groups);
    if let Err(error) = std::fs::write(&path, &bytes) {
        println!("{path}: {error}");
        exit(1);
    }
    for group in &groups {
        println!("{}: {} cases", GROUPS[group.number], group.cases.len());
    }
    println!("{} bytes", bytes.len());
}
