//! `live [--naive | --engine] < INPUT`: prints what the program `live` must, for all of its input: as the
//! plain version has the program, or over the functions of another.
//! `live --input SEED INDEX`: prints an input of it instead.

use harness::session::session;
use harness::{engine::ENGINE, gen, plain, NAIVE};
use std::env;
use std::io::{self, Read, Write};
use std::process::ExitCode;

fn answers(arguments: &[&str]) -> io::Result<Option<Vec<u8>>> {
    if let ["--input", seed, index] = arguments {
        let (Ok(seed), Ok(index)) = (seed.parse(), index.parse()) else {
            return Ok(None);
        };
        return Ok(Some(gen::session(seed, index)));
    }
    let prints: fn(&[u8]) -> Vec<u8> = match arguments {
        [] => plain::session,
        ["--naive"] => |input| session(&NAIVE, input),
        ["--engine"] => |input| session(&ENGINE, input),
        _ => return Ok(None),
    };
    let mut input = Vec::new();
    io::stdin().read_to_end(&mut input)?;
    Ok(Some(prints(&input)))
}

fn main() -> ExitCode {
    let arguments: Vec<String> = env::args().skip(1).collect();
    let arguments: Vec<&str> = arguments.iter().map(String::as_str).collect();
    match answers(&arguments) {
        Ok(Some(answers)) => match io::stdout().write_all(&answers) {
            Ok(()) => ExitCode::SUCCESS,
            Err(_) => ExitCode::FAILURE,
        },
        Ok(None) => {
            eprintln!("usage: live [--naive | --engine] < INPUT, or live --input SEED INDEX");
            ExitCode::from(2)
        }
        Err(error) => {
            eprintln!("live: {error}");
            ExitCode::FAILURE
        }
    }
}
