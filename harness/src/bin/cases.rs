//! `cases DIR [--engine | --naive]`: runs an implementation over a folder of cases, which has
//! folders named as programs with inputs NNNN.in and what the program must print, NNNN.out.
//! For `live` the plain version has the program itself, the others the functions that it calls.

use harness::session::session;
use harness::{engine::ENGINE, plain, printed, Engine, NAIVE, OPERATIONS, PLAIN};
use std::path::{Path, PathBuf};
use std::process::ExitCode;
use std::{env, fs, io};

/// The inputs of one operation, in order.
fn inputs(folder: &Path) -> io::Result<Vec<PathBuf>> {
    let mut inputs = Vec::new();
    for entry in fs::read_dir(folder)? {
        let path = entry?.path();
        if path.extension().is_some_and(|extension| extension == "in") {
            inputs.push(path);
        }
    }
    inputs.sort();
    Ok(inputs)
}

/// How many cases of one program passed, and how many there are.
fn program(folder: &Path, prints: impl Fn(&[u8]) -> Vec<u8>) -> io::Result<(usize, usize)> {
    let inputs = inputs(folder)?;
    let mut passed = 0;
    for path in &inputs {
        let expected = fs::read(path.with_extension("out"))?;
        let found = prints(&fs::read(path)?);
        if found == expected {
            passed += 1;
            continue;
        }
        println!("differs: {}", path.display());
        println!("  expected: {}", expected.escape_ascii());
        println!("  found:    {}", found.escape_ascii());
    }
    Ok((passed, inputs.len()))
}

fn run(engine: &Engine, folder: &Path) -> io::Result<bool> {
    let (mut passed, mut failed) = (0, 0);
    for (at, name) in OPERATIONS.iter().chain(&["live"]).enumerate() {
        let folder = folder.join(name);
        if !folder.is_dir() {
            continue;
        }
        let (some, all) = program(&folder, |input| match engine.operations.get(at) {
            Some(&operation) => printed(operation, input),
            None if engine.name == PLAIN.name => plain::session(input),
            None => session(engine, input),
        })?;
        println!("{name}: {some} of {all} passed");
        passed += some;
        failed += all - some;
    }
    println!("{}: {passed} passed, {failed} failed", engine.name);
    Ok(failed == 0 && passed > 0)
}

fn main() -> ExitCode {
    let mut engine = PLAIN;
    let mut folder = None;
    for argument in env::args().skip(1) {
        match argument.as_str() {
            "--engine" => engine = ENGINE,
            "--naive" => engine = NAIVE,
            _ => folder = Some(PathBuf::from(argument)),
        }
    }
    let Some(folder) = folder else {
        eprintln!("usage: cases DIR [--engine | --naive]");
        return ExitCode::from(2);
    };
    match run(&engine, &folder) {
        Ok(true) => ExitCode::SUCCESS,
        Ok(false) => ExitCode::FAILURE,
        Err(error) => {
            eprintln!("{}: {error}", folder.display());
            ExitCode::from(2)
        }
    }
}
