// The program of the second implementation: runs the job on standard input and prints its session.

use reference::machine::session;
use std::io::{stdin, stdout, Read, Result, Write};

fn main() -> Result<()> {
    let mut job = Vec::new();
    stdin().read_to_end(&mut job)?;
    stdout().write_all(session(&job).as_bytes())
}
