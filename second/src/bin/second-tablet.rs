//! The tablet of the second implementation.

use second::message::BORROWERS;
use second::serve::{self, Failure};
use second::tablet;
use std::path::Path;
use std::process::ExitCode;

fn main() -> ExitCode {
    serve::run("second-tablet RATE SHORT LONG BORROWER FILE", 5, |arguments| {
        let terms = serve::terms_arguments(arguments)?;
        let number = serve::number_argument(&arguments[3])?;
        if number >= BORROWERS as u64 {
            return Err(Failure::Usage("borrowers are numbered from 0 to 31"));
        }
        tablet::serve(terms, number as u8, Path::new(&arguments[4]), std::io::stdin(), std::io::stdout())
    })
}
