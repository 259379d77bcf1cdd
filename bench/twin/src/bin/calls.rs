//! Makes a file of calls from a seed: `calls KIND SEED COUNT > FILE`.
//!
//! The same kind, seed and count make the same file everywhere.

use std::env;
use std::io::{self, BufWriter, Write};
use std::process::ExitCode;

use twin::make::{make, KINDS};

fn main() -> ExitCode {
    let arguments: Vec<String> = env::args().skip(1).collect();
    let [kind, seed, count] = &arguments[..] else {
        return usage();
    };
    let (Ok(seed), Ok(count)) = (seed.parse(), count.parse()) else {
        return usage();
    };
    let mut out = BufWriter::with_capacity(1 << 16, io::stdout().lock());
    match make(kind, seed, count, &mut out).and_then(|known| out.flush().map(|()| known)) {
        Ok(true) => ExitCode::SUCCESS,
        Ok(false) => usage(),
        Err(error) => {
            eprintln!("calls: {error}");
            ExitCode::FAILURE
        }
    }
}

fn usage() -> ExitCode {
    let kinds: Vec<&str> = KINDS.iter().map(|(name, _)| *name).collect();
    eprintln!("usage: calls KIND SEED COUNT > FILE");
    eprintln!("KIND: {}", kinds.join(", "));
    eprintln!(
        "or held-base, held-run:LENGTH, query:ID, query-list:IDS, malformed:NAME, malformed:list"
    );
    ExitCode::from(2)
}
