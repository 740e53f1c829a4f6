//! The program `squall-redis-node`.

use squall_redis::{args, keeper};
use std::process::ExitCode;

fn main() -> ExitCode {
    args::run(&keeper::USAGE, keeper::run)
}
