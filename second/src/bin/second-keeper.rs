//! The keeper of the second implementation.

use second::{keeper, serve};
use std::path::Path;
use std::process::ExitCode;

fn main() -> ExitCode {
    serve::run("second-keeper RATE SHORT LONG FILE", 4, |arguments| {
        let terms = serve::terms_arguments(arguments)?;
        keeper::serve(terms, Path::new(&arguments[3]), std::io::stdin(), std::io::stdout())
    })
}
