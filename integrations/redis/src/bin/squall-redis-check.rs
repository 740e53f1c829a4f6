//! The program `squall-redis-check`.

use squall_redis::{args, check};
use std::process::ExitCode;

fn main() -> ExitCode {
    args::run(&check::USAGE, check::run)
}
