//! The line relay: messages on standard input, one a line, over a fresh table of 8 slots; their replies on standard output.

use plavdrosa::{Table, relay, table_size};

fn main() -> Result<(), Box<dyn std::error::Error>> {
    let mut buffer = [0; table_size(8)];
    let mut table = Table::format(&mut buffer, 8)?;
    relay(
        &mut table,
        std::io::stdin().lock(),
        std::io::stdout().lock(),
    )?;
    Ok(())
}
