//! What a program says of its work: a line on standard error for each event, with the time, the level and the program.

use crate::args::Args;
use crate::fault::{note, Done, Fault};
use std::fmt::{Display, Write as _};
use std::sync::atomic::{AtomicBool, Ordering::Relaxed};
use std::sync::OnceLock;
use std::time::{SystemTime, UNIX_EPOCH};

/// The option that says in which form.
pub const OPTION: &str = "log";

/// The program, and whether its lines are JSON.
static PROGRAM: OnceLock<&str> = OnceLock::new();
static IS_JSON: AtomicBool = AtomicBool::new(false);

/// From now on lines have that program.
pub fn begin(program: &'static str) {
    let _ = PROGRAM.set(program);
}

/// From now on they have the form that the words of the command line name.
///
/// # Errors
///
/// They name no form.
pub fn set_form(args: &Args) -> Done<()> {
    match args.get(OPTION) {
        None | Some("text") => {}
        Some("json") => IS_JSON.store(true, Relaxed),
        Some(other) => return Err(Fault::of_words(format!("--log {other}: it is text or json"))),
    }
    Ok(())
}

/// Says what goes on.
pub fn info(words: impl Display) {
    put("info", &words.to_string());
}

/// Says what somebody may have to mend.
pub fn warn(words: impl Display) {
    put("warn", &words.to_string());
}

/// Says why the program, or a part of its work, has failed.
pub fn fail(words: impl Display) {
    put("error", &words.to_string());
}

fn put(level: &str, words: &str) {
    let program = PROGRAM.get().copied().unwrap_or("squall-redis");
    let since = SystemTime::now().duration_since(UNIX_EPOCH).unwrap_or_default();
    let time = time(since.as_secs(), since.subsec_millis());
    note(if IS_JSON.load(Relaxed) {
        json(&[("time", &time), ("level", level), ("program", program), ("text", words)])
    } else {
        format!("{time} {level} {program}: {}", words.replace('\n', " "))
    });
}

/// A moment since 1970, in seconds and milliseconds, as ISO 8601 has it.
fn time(seconds: u64, millis: u32) -> String {
    let (days, rest) = (seconds / 86_400, seconds % 86_400);
    // Years begin in March here, so that a day that is put in comes last. An era has 400 of them.
    let days = days + 719_468;
    let (era, day) = (days / 146_097, days % 146_097);
    let year = (day - day / 1460 + day / 36_524 - day / 146_096) / 365;
    let day = day - (365 * year + year / 4 - year / 100);
    let month = (5 * day + 2) / 153;
    let day = day - (153 * month + 2) / 5 + 1;
    let (is_next, month) = if month < 10 { (0, month + 3) } else { (1, month - 9) };
    let (hour, minute, second) = (rest / 3600, rest / 60 % 60, rest % 60);
    let year = era * 400 + year + is_next;
    format!("{year:04}-{month:02}-{day:02}T{hour:02}:{minute:02}:{second:02}.{millis:03}Z")
}

fn json(fields: &[(&str, &str)]) -> String {
    let mut line = String::from("{");
    for (at, (name, value)) in fields.iter().enumerate() {
        let comma = if at > 0 { "," } else { "" };
        let _ = write!(line, "{comma}\"{name}\":\"{}\"", escaped(value));
    }
    line + "}"
}

fn escaped(text: &str) -> String {
    text.chars().fold(String::new(), |mut all, letter| {
        let _ = match letter {
            '"' | '\\' => write!(all, "\\{letter}"),
            '\n' => write!(all, "\\n"),
            letter if letter < ' ' => write!(all, "\\u{:04x}", letter as u32),
            letter => write!(all, "{letter}"),
        };
        all
    })
}

#[cfg(test)]
mod tests {
    use super::*;

    #[test]
    fn moments_have_dates() {
        for (seconds, wanted) in [
            (0, "1970-01-01T00:00:00.007Z"),
            (951_782_399, "2000-02-28T23:59:59.007Z"),
            (951_782_400, "2000-02-29T00:00:00.007Z"),
            (1_709_251_199, "2024-02-29T23:59:59.007Z"),
            (4_107_542_400, "2100-03-01T00:00:00.007Z"),
        ] {
            assert_eq!(time(seconds, 7), wanted);
        }
    }

    #[test]
    fn lines_may_be_json() {
        let line = json(&[("level", "info"), ("text", "a \"b\" \\ \n\u{1}é")]);
        assert_eq!(line, r#"{"level":"info","text":"a \"b\" \\ \n\u0001é"}"#);
    }
}
