//! Reads a net card and an order card from standard input and prints the earliest timetable.
use std::io::{self, Read, Write};

fn main() -> io::Result<()> {
    let (mut input, mut output) = (Vec::new(), [0; tpn::TIMETABLE_MAX]);
    io::stdin().read_to_end(&mut input)?;
    match tpn::timetable(&input, &mut output) {
        Ok(n) => io::stdout().write_all(&output[..n]),
        Err(refusal) => writeln!(io::stderr(), "{refusal}"),
    }
}
