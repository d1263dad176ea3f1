//! The rehearsal of the second implementation. It keeps its own account while it plays, and
//! ends with status 3 where a promise is broken. With `SECOND_AUDIT=off` it only plays.

use second::rehearse::{self, Ended};
use second::serve;
use std::process::ExitCode;

fn main() -> ExitCode {
    let audited = std::env::var_os("SECOND_AUDIT").is_none_or(|value| value != "off");
    let mut broken = false;
    let status = serve::run("second-rehearse RATE SHORT LONG", 3, |arguments| {
        let terms = serve::terms_arguments(arguments)?;
        match rehearse::play(terms, audited, std::io::stdin(), std::io::stdout()) {
            Ok(()) => Ok(()),
            Err(Ended::Failure(failure)) => Err(failure),
            Err(Ended::Violation { line, violation }) => {
                eprintln!("A PROMISE IS BROKEN at line {line}: {}", violation.0);
                broken = true;
                Ok(())
            }
        }
    });
    if broken { ExitCode::from(3) } else { status }
}
