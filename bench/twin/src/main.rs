//! Performs a file of calls from standard input and writes what it gave.
//!
//! `twin` writes one line with a digest; `twin bare` leaves the records out of
//! the digest; `twin trace` writes a line for each call; `twin cover` writes a
//! table of what the file meets of the rules.

use std::env;
use std::io::{self, BufWriter, Read, Write};
use std::process::ExitCode;

use twin::cover::Cover;
use twin::perform::{perform, Summary, Trace};

fn main() -> ExitCode {
    let arguments: Vec<String> = env::args().skip(1).collect();
    let arguments: Vec<&str> = arguments.iter().map(String::as_str).collect();
    let told = match arguments[..] {
        [] => tell(What::Digest),
        ["bare"] => tell(What::Bare),
        ["trace"] => tell(What::Trace),
        ["cover"] => tell(What::Cover),
        _ => {
            eprintln!("usage: twin [bare|trace|cover] < FILE");
            return ExitCode::from(2);
        }
    };
    match told {
        Ok(()) => ExitCode::SUCCESS,
        // Whoever reads a trace up to a line of interest may close it early.
        Err(error) if error.kind() == io::ErrorKind::BrokenPipe => ExitCode::SUCCESS,
        Err(error) => {
            eprintln!("twin: {error}");
            ExitCode::FAILURE
        }
    }
}

enum What {
    Digest,
    Bare,
    Trace,
    Cover,
}

fn tell(what: What) -> io::Result<()> {
    let mut bytes = Vec::new();
    io::stdin().lock().read_to_end(&mut bytes)?;
    let mut out = BufWriter::with_capacity(1 << 16, io::stdout().lock());
    let fault = match what {
        What::Digest => summarise(&bytes, false, &mut out)?,
        What::Bare => summarise(&bytes, true, &mut out)?,
        What::Trace => perform(&bytes, &mut Trace::new(&mut out))?,
        What::Cover => {
            let mut cover = Cover::new();
            let fault = perform(&bytes, &mut cover)?;
            cover.write_table(&mut out)?;
            fault
        }
    };
    if let Some(fault) = fault {
        writeln!(out, "{fault}")?;
    }
    out.flush()
}

fn summarise(
    bytes: &[u8],
    bare: bool,
    out: &mut impl Write,
) -> io::Result<Option<twin::file::Fault>> {
    let mut summary = Summary::new(bare);
    let fault = perform(bytes, &mut summary)?;
    summary.write_line(out)?;
    Ok(fault)
}
