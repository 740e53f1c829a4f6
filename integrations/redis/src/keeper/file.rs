//! A board in a file, of which a crash at any moment leaves the whole last one.

use crate::fault::{Done, Fault, Trying};
use squall::Router;
use std::fs::{self, File};
use std::io::{ErrorKind, Write};
use std::path::{Path, PathBuf};

/// The file of a board: its frames, one after another.
pub struct BoardFile {
    path: PathBuf,
    /// The next one, until it is whole.
    new: PathBuf,
    folder: PathBuf,
}

impl BoardFile {
    /// The file of that path.
    pub fn new(path: impl Into<PathBuf>) -> BoardFile {
        let path = path.into();
        let mut new = path.clone().into_os_string();
        new.push(".new");
        let folder = path.parent().filter(|folder| !folder.as_os_str().is_empty());
        let folder = folder.unwrap_or(Path::new(".")).to_path_buf();
        BoardFile { path, new: new.into(), folder }
    }

    /// Its path.
    pub fn path(&self) -> &Path {
        &self.path
    }

    /// The frames that were written last; none if nothing was written. The plan is that of course 1.
    ///
    /// # Errors
    ///
    /// The file can't be read, or holds anything but the frames of one board.
    pub fn read(&self, plan: &[u8]) -> Done<Vec<Vec<u8>>> {
        let bytes = match fs::read(&self.path) {
            Err(error) if error.kind() == ErrorKind::NotFound => return Ok(Vec::new()),
            read => read.trying(|| self.path.display().to_string())?,
        };
        let mut router = Router::open(1, plan, plan)?;
        let damaged = || format!("{}: the file is damaged", self.path.display());
        router.feed(&bytes).trying(damaged)?;
        let frames: Vec<Vec<u8>> = router.board()?.collect();
        // A frame that is cut at the end is no frame, and has changed nothing.
        if frames.concat() != bytes {
            return Err(Fault::new("it is not one whole board")).trying(damaged);
        }
        Ok(frames)
    }

    /// The same as `write` if what it holds is new, and else nothing.
    ///
    /// # Errors
    ///
    /// The system has refused it. The file is as before.
    pub fn write_if(&self, is_new: bool, frames: &[u8]) -> Done<()> {
        if is_new {
            self.write(frames)?;
        }
        Ok(())
    }

    /// Writes the frames of a board. If it is ended at any moment, the file holds these or those before.
    ///
    /// # Errors
    ///
    /// The system has refused it. The file is as before.
    pub fn write(&self, frames: &[u8]) -> Done<()> {
        let mut file = File::create(&self.new).trying(|| self.new.display().to_string())?;
        let written = file.write_all(frames).and_then(|()| file.sync_all());
        written.trying(|| self.new.display().to_string())?;
        fs::rename(&self.new, &self.path).trying(|| self.path.display().to_string())?;
        let folder = File::open(&self.folder).and_then(|folder| folder.sync_all());
        folder.trying(|| self.folder.display().to_string())
    }
}

#[cfg(test)]
mod tests {
    use super::*;
    use squall::Rank;

    const PLAN: &[u8] = br#"{"plan":[{"part":1,"from":[0,0],"to":"end"}]}"#;
    const NEXT: &[u8] =
        br#"{"plan":[{"part":1,"from":[0,0],"to":[2,0]},{"part":3,"from":[2,0],"to":"end"}]}"#;

    /// A board that is told of a course and of so many loads.
    fn board(loads: u32) -> Vec<u8> {
        let mut router = Router::open(1, PLAN, PLAN).unwrap();
        router.issued(2, NEXT).unwrap();
        router.opened(2, 0).unwrap();
        for at in 0..loads {
            router.loaded(2, 0, 3, Rank::new(2, 2 * at)..Rank::new(2, 2 * at + 1)).unwrap();
        }
        router.board().unwrap().collect::<Vec<_>>().concat()
    }

    fn file(name: &str) -> BoardFile {
        let folder = std::env::temp_dir().join(format!("squall-{}-{name}", std::process::id()));
        let _ = fs::remove_dir_all(&folder);
        fs::create_dir(&folder).unwrap();
        BoardFile::new(folder.join("board"))
    }

    #[test]
    fn what_was_written_is_read() {
        let file = file("read");
        assert!(file.read(PLAN).unwrap().is_empty());
        for loads in [0, 1, 9] {
            file.write(&board(loads)).unwrap();
            assert_eq!(file.read(PLAN).unwrap().concat(), board(loads));
        }
        fs::remove_dir_all(&file.folder).unwrap();
    }

    #[test]
    fn a_write_may_end_at_any_byte() {
        let file = file("cut");
        let (before, after) = (board(3), board(4));
        file.write(&before).unwrap();
        for len in 0..=after.len() {
            fs::write(&file.new, &after[..len]).unwrap();
            assert_eq!(file.read(PLAN).unwrap().concat(), before, "{len}");
        }
        file.write(&after).unwrap();
        assert_eq!(file.read(PLAN).unwrap().concat(), after);
        fs::remove_dir_all(&file.folder).unwrap();
    }

    #[test]
    fn a_damaged_file_is_refused() {
        let file = file("damaged");
        let whole = board(5);
        for len in 1..whole.len() {
            fs::write(&file.path, &whole[..len]).unwrap();
            let read = file.read(PLAN);
            // A cut between two frames leaves a board that says less.
            assert!(read.is_err() || whole.starts_with(&read.unwrap().concat()), "{len}");
        }
        fs::write(&file.path, b"no frame at all, but long enough for the head of one").unwrap();
        assert!(file.read(PLAN).is_err());
        fs::remove_dir_all(&file.folder).unwrap();
    }

    #[test]
    fn a_folder_that_is_not_there_is_an_error() {
        let file = BoardFile::new("/nowhere/at/all/board");
        assert!(file.read(PLAN).unwrap().is_empty());
        assert!(file.write(b"").is_err());
    }
}
