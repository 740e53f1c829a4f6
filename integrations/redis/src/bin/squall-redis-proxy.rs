//! The program `squall-redis-proxy`.

use squall_redis::{args, proxy};
use std::process::ExitCode;

fn main() -> ExitCode {
    args::run(&proxy::USAGE, proxy::run)
}
