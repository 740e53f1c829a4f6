//! Why a program can't go on, in words for its operator, and what else it says.

use std::any::Any;
use std::fmt;
use std::io::{self, Write};

/// Why a program can't go on.
#[derive(Clone, Debug)]
pub struct Fault {
    words: String,
    kind: Kind,
}

/// What is wrong.
#[derive(Clone, Copy, Debug, PartialEq)]
enum Kind {
    /// The words of the command line.
    Words,
    /// A connection, or another thing of the system. It may be there again later.
    Lost,
    /// Anything else.
    Other,
}

/// What is done, or why not.
pub type Done<T> = Result<T, Fault>;

impl Fault {
    /// A fault of these words.
    pub fn new(words: impl Into<String>) -> Fault {
        Fault { words: words.into(), kind: Kind::Other }
    }

    /// A fault of a connection that is lost.
    pub fn lost(words: impl Into<String>) -> Fault {
        Fault { words: words.into(), kind: Kind::Lost }
    }

    /// A fault of the command line: what is wrong with its words.
    pub fn of_words(words: impl Into<String>) -> Fault {
        Fault { words: words.into(), kind: Kind::Words }
    }

    /// Whether it is one of the command line.
    pub fn is_of_words(&self) -> bool {
        self.kind == Kind::Words
    }

    /// Whether it is one of a connection.
    pub fn is_lost(&self) -> bool {
        self.kind == Kind::Lost
    }
}

impl fmt::Display for Fault {
    fn fmt(&self, f: &mut fmt::Formatter<'_>) -> fmt::Result {
        f.write_str(&self.words)
    }
}

impl std::error::Error for Fault {}

impl From<io::Error> for Fault {
    fn from(error: io::Error) -> Fault {
        let words = error.to_string();
        if is_of_system(&error) {
            Fault::lost(words)
        } else {
            Fault::new(words)
        }
    }
}

impl From<squall::Error> for Fault {
    fn from(error: squall::Error) -> Fault {
        Fault::new(error.to_string())
    }
}

/// Says a line on standard error. If nobody reads it any more, the program goes on.
pub fn note(line: impl fmt::Display) {
    let _ = writeln!(io::stderr(), "{line}");
}

/// Writes a line to standard output.
///
/// # Errors
///
/// It can't be written, as when nobody reads it any more.
pub fn say(line: impl fmt::Display) -> Done<()> {
    writeln!(io::stdout(), "{line}").trying(|| "standard output".to_string())
}

/// Says of an error what was tried.
pub trait Trying<T> {
    /// The same result. An error begins with the words of `what`.
    fn trying(self, what: impl FnOnce() -> String) -> Done<T>;
}

impl<T, E: fmt::Display + 'static> Trying<T> for Result<T, E> {
    fn trying(self, what: impl FnOnce() -> String) -> Done<T> {
        self.map_err(|error| {
            let words = format!("{}: {error}", what());
            match is_lost(&error) {
                true => Fault::lost(words),
                false => Fault::new(words),
            }
        })
    }
}

/// Whether an error is one of a connection, or of another thing of the system.
fn is_lost(error: &dyn Any) -> bool {
    error.downcast_ref().is_some_and(is_of_system) || error.downcast_ref().is_some_and(Fault::is_lost)
}

/// Whether it is the system's. What TLS refuses does not pass, but its connection may be cut too.
fn is_of_system(error: &io::Error) -> bool {
    error.kind() != io::ErrorKind::Other || error.to_string().contains("unexpected eof")
}

#[cfg(test)]
mod tests {
    use super::*;

    #[test]
    fn what_is_lost_stays_so() {
        let closed = || io::Error::from(io::ErrorKind::ConnectionReset);
        let within = |fault: Fault| Err::<(), _>(fault).trying(|| "partition 1".into()).unwrap_err();
        assert!(Fault::from(closed()).is_lost() && within(closed().into()).is_lost());
        assert!(within(Err::<(), _>(closed()).trying(|| "to hear".into()).unwrap_err()).is_lost());
        let refused = within(Fault::of_words("--part x"));
        assert!(!refused.is_lost() && !refused.is_of_words());
    }
}
