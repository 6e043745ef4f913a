//! Reads a net card from standard input, enters a run on it step by step, and prints the card of the run; what happens on the way goes to standard
//! error. For net A: two pulses at 3/2 and 3 ticks and the closing of the batch, of which one is tried too early.
use std::io::{self, Read, Write};
use tpn::{Memory, OpenRun, Refusal};

fn enter(run: &mut OpenRun) -> Result<String, Refusal> {
    run.wait(3)?;
    run.fire(0)?;
    run.wait(2)?;
    if let Err(refusal) = run.fire(1) {
        // nothing has changed, so the run goes on
        eprintln!("{refusal}");
    }
    run.wait(1)?;
    run.fire(0)?;
    eprint!("{}", run.state()?);
    run.fire(1)?;
    run.close(0)
}

fn main() -> io::Result<()> {
    let mut net = Vec::new();
    io::stdin().read_to_end(&mut net)?;
    match OpenRun::open(&net, Memory::Atomic, 2).and_then(|mut run| enter(&mut run)) {
        Ok(card) => io::stdout().write_all(card.as_bytes()),
        Err(refusal) => writeln!(io::stderr(), "{refusal}"),
    }
}
