//! Tells for each line of standard input whether serde_json reads it as a value.

use std::io::{self, BufRead, Write};

fn main() -> io::Result<()> {
    let mut told = io::BufWriter::new(io::stdout());
    for line in io::stdin().lock().split(b'\n') {
        let is_read = serde_json::from_slice::<serde_json::Value>(&line?).is_ok();
        writeln!(told, "{}", if is_read { "read" } else { "bad json" })?;
    }
    Ok(())
}
