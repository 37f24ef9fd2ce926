//! Compares the proved library with the reference.

use std::process::ExitCode;

fn main() -> ExitCode {
    if compare::comparison::run() {
        ExitCode::SUCCESS
    } else {
        ExitCode::FAILURE
    }
}
