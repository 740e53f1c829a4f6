//! What the programs make of their words, and of nobody who reads what they say.

use std::ffi::OsStr;
use std::os::fd::OwnedFd;
use std::os::unix::ffi::OsStrExt;
use std::os::unix::net::UnixStream;
use std::process::{Command, Stdio};

const PROGRAMS: [&str; 4] = [
    env!("CARGO_BIN_EXE_squall-redis-check"),
    env!("CARGO_BIN_EXE_squall-redis-mover"),
    env!("CARGO_BIN_EXE_squall-redis-node"),
    env!("CARGO_BIN_EXE_squall-redis-proxy"),
];

/// What nobody reads.
fn nobody() -> Stdio {
    let (_, gone) = UnixStream::pair().unwrap();
    OwnedFd::from(gone).into()
}

/// The status of a program, and what it said on standard error.
fn run(program: &mut Command) -> (Option<i32>, String) {
    let output = program.output().unwrap();
    (output.status.code(), String::from_utf8(output.stderr).unwrap())
}

#[test]
fn words_of_other_bytes_are_refused() {
    for program in PROGRAMS {
        let (status, said) =
            run(Command::new(program).args(["--first", "x"]).arg(OsStr::from_bytes(b"\xff")));
        assert_eq!(status, Some(2), "{said}");
        assert!(said.contains("is not UTF-8") && said.contains("--help"), "{said}");
    }
}

#[test]
fn nobody_needs_to_read() {
    for program in PROGRAMS {
        let (status, said) = run(Command::new(program).arg("--help").stdout(nobody()));
        assert_eq!(status, Some(1), "{said}");
        assert!(said.contains("standard output: Broken pipe"), "{said}");
        let (status, _) = run(Command::new(program).arg("--nothing").stderr(nobody()));
        assert_eq!(status, Some(2));
    }
}

#[test]
fn a_bad_plan_is_named() {
    let plan = concat!(env!("CARGO_MANIFEST_DIR"), "/Cargo.toml");
    let secret = concat!(env!("CARGO_TARGET_TMPDIR"), "/secret");
    std::fs::write(secret, "a secret of a test".replace(' ', "-")).unwrap();
    let rest = [
        "--init",
        "--part",
        "1=127.0.0.1:1",
        "--secret-file",
        secret,
        "--board",
        "x",
        "--bus",
        "127.0.0.1:1",
    ];
    for (program, words) in [(PROGRAMS[1], &rest[..3]), (PROGRAMS[2], &rest[3..])] {
        let (status, said) = run(Command::new(program).args(["--first", plan]).args(words));
        assert_eq!(status, Some(1), "{said}");
        assert!(said.contains(&format!("--first {plan}: ")), "{said}");
    }
}
