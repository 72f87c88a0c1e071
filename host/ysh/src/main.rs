//! `ysh`: from a strategy to the capacitors.

use std::io;
use std::process::ExitCode;

fn main() -> ExitCode {
    // Neither is locked for the whole run: the progress bar writes to standard error meanwhile, from another thread.
    let (mut out, mut err) = (io::BufWriter::new(io::stdout()), io::stderr());
    let status = ysh::run(std::env::args_os(), &mut out, &mut err);
    ExitCode::from(status)
}
