//! `lomkhvide`: what became of the records of a file. `lomkhvide --help` says how to ask.

#[path = "../tool/mod.rs"]
mod tool;

use std::env;
use std::io::{self, BufWriter, Write};
use std::process::ExitCode;

use tool::{Asked, Fault, USAGE, Whole};

fn main() -> ExitCode {
    let words: Result<Vec<String>, _> = env::args_os().skip(1).map(|word| word.into_string()).collect();
    let asked = match words {
        Ok(words) => tool::asked(&words),
        Err(word) => Err(Fault::Usage(format!("{}: not text", word.display()))),
    };
    let mut out = BufWriter::new(io::stdout().lock());
    let outcome = asked.and_then(|asked| shown(asked.as_ref(), &mut out)).and_then(|whole| Ok(out.flush().map(|()| whole)?));
    match outcome {
        Ok(whole) => whole.exit_status().into(),
        Err(fault) => {
            // Whoever reads the answer and closes it has seen enough.
            let seen_enough = matches!(&fault, Fault::Output(error) if error.kind() == io::ErrorKind::BrokenPipe);
            if !seen_enough {
                // Where this cannot be said either, the exit status is all that is left.
                let _ = writeln!(io::stderr(), "lomkhvide: {fault}");
            }
            fault.exit_status().into()
        }
    }
}

fn shown(asked: Option<&Asked>, out: &mut dyn Write) -> Result<Whole, Fault> {
    match asked {
        Some(asked) => tool::answer(asked, out),
        None => Ok(out.write_all(USAGE.as_bytes()).map(|()| Whole::All)?),
    }
}
