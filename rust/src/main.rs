//! The tool `tuormik`: discs in image files, through the proved block layer.

mod tool;

use std::process::ExitCode;

fn main() -> ExitCode {
    ExitCode::from(tool::main())
}
