//! What a program did, line by line, in a file of its own: `--deeds DIR`. `deeds` makes logs of such files.

use crate::args::Args;
use crate::dice::Dice;
use crate::fault::{Done, Trying};
use crate::log;
use std::fs::{self, File};
use std::io::Write;
use std::path::{Path, PathBuf};
use std::sync::atomic::{AtomicBool, Ordering::Relaxed};
use std::sync::{Mutex, PoisonError};
use std::time::{SystemTime, UNIX_EPOCH};

/// The option that names the folder of these files.
pub const OPTION: &str = "deeds";

/// A file of deeds, or none.
#[derive(Default)]
pub struct Diary(Option<Open>);

struct Open {
    path: PathBuf,
    file: Mutex<File>,
    /// Whether it has refused a line.
    has_failed: AtomicBool,
}

impl Diary {
    /// A new file of a node of that role, if the words name a folder.
    ///
    /// # Errors
    ///
    /// The file can't be made there.
    pub fn of(args: &Args, role: &str) -> Done<Diary> {
        let Some(folder) = args.get(OPTION) else {
            return Ok(Diary::default());
        };
        let path = Path::new(folder).join(format!("{role}-{:016x}.deeds", Dice::fresh().draw()));
        let words = || format!("--{OPTION} {}", path.display());
        fs::create_dir_all(folder).trying(words)?;
        let file = File::options().append(true).create_new(true).open(&path).trying(words)?;
        Ok(Diary(Some(Open { path, file: Mutex::new(file), has_failed: AtomicBool::new(false) })))
    }

    /// Whether there is a file.
    pub fn is_on(&self) -> bool {
        self.0.is_some()
    }

    /// Writes a line with the time, in microseconds since 1970. Nothing is done without a file.
    ///
    /// # Errors
    ///
    /// The file does not take it.
    pub fn write(&self, line: impl FnOnce() -> String) -> Done<()> {
        let Some(it) = &self.0 else {
            return Ok(());
        };
        let mut file = it.file.lock().unwrap_or_else(PoisonError::into_inner);
        let now = SystemTime::now().duration_since(UNIX_EPOCH).unwrap_or_default();
        let text = format!("{} {}\n", now.as_micros(), line());
        // In one call, so that a program that is killed leaves no half of a line.
        file.write_all(text.as_bytes()).trying(|| format!("--{OPTION} {}", it.path.display()))
    }

    /// The same. If the file does not take a line, that is said once, and no further one is written.
    pub fn try_write(&self, line: impl FnOnce() -> String) {
        if self.0.as_ref().is_none_or(|it| it.has_failed.load(Relaxed)) {
            return;
        }
        if let (Err(fault), Some(it)) = (self.write(line), &self.0) {
            it.has_failed.store(true, Relaxed);
            log::warn(format!("{fault}; nothing more is written there"));
        }
    }
}

#[cfg(test)]
mod tests {
    use super::*;
    use crate::args::Usage;

    fn args(words: &[&str]) -> Args {
        let words: Vec<String> = words.iter().map(|word| word.to_string()).collect();
        Args::parse(&words, &Usage { name: "test", help: "", options: &[OPTION], flags: &[] }).unwrap()
    }

    #[test]
    fn each_program_has_a_file_of_its_own() {
        let folder = std::env::temp_dir().join(format!("squall-diary-{:016x}", Dice::fresh().draw()));
        let words = ["--deeds", folder.to_str().unwrap()];
        for deeds in [&["open 2 0", "open 2 1"][..], &["begin 2"]] {
            let diary = Diary::of(&args(&words), "leader").unwrap();
            assert!(diary.is_on());
            deeds.iter().for_each(|deed| diary.write(|| deed.to_string()).unwrap());
        }
        let mut texts: Vec<String> = fs::read_dir(&folder)
            .unwrap()
            .map(|file| fs::read_to_string(file.unwrap().path()).unwrap())
            .map(|text| {
                text.lines().map(|line| line.split_once(' ').unwrap().1).collect::<Vec<_>>().join(";")
            })
            .collect();
        texts.sort();
        assert_eq!(texts, ["begin 2", "open 2 0;open 2 1"]);
        fs::remove_dir_all(&folder).unwrap();
    }

    #[test]
    fn without_the_option_there_is_none() {
        let diary = Diary::of(&args(&[]), "leader").unwrap();
        assert!(!diary.is_on());
        diary.write(|| unreachable!()).unwrap();
    }
}
