//! The bench program: a script on standard input, its answers on standard output.

use std::io::{self, Write};

fn main() -> io::Result<()> {
    let printed = second::script::run(io::stdin().lock())?;
    io::stdout().write_all(printed.as_bytes())
}
