//! The program `squall-redis-mover`.

use squall_redis::{args, mover};
use std::process::ExitCode;

fn main() -> ExitCode {
    args::run(&mover::USAGE, mover::run)
}
