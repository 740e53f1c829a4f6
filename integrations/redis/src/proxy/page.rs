//! The status page. What it says of the course are the words and the picture of the program `squall`.

use super::metrics::Shared;
use crate::fault::{Done, Fault, Trying};
use crate::http::{Answer, Site};
use std::io::Write;
use std::process::{Command, Stdio};
use std::sync::{Arc, Mutex, PoisonError};

/// The page, without what changes.
const HTML: &str = include_str!("page.html");

/// What the port of the status page shows.
pub struct Page {
    shared: Arc<Shared>,
    /// The program `squall`, and the file of the plan of course 1.
    program: String,
    first: String,
    /// What the program said last, by its command.
    said: Mutex<[Said; 2]>,
}

/// What the program said of a board.
#[derive(Default)]
struct Said {
    board: Vec<u8>,
    text: String,
}

/// A command of the program.
#[derive(Clone, Copy)]
enum Asked {
    Status,
    Picture,
}

impl Page {
    /// The page of a proxy, which asks that program.
    pub fn new(shared: Arc<Shared>, program: &str, first: &str) -> Page {
        Page { shared, program: program.into(), first: first.into(), said: Mutex::default() }
    }

    /// The frames of the board, one after another.
    fn board(&self) -> Done<Vec<u8>> {
        Ok(self.shared.node.board()?.concat())
    }

    /// What the program says of the board as it is.
    fn say(&self, asked: Asked) -> Done<String> {
        self.ask(asked, &self.board()?)
    }

    /// The page for people. Its picture and its lines are those of one board.
    fn html(&self) -> Done<String> {
        let or_why = |said: Done<String>| said.unwrap_or_else(|fault| escaped(&fault.to_string()));
        let board = self.board()?;
        let [status, picture] = [Asked::Status, Asked::Picture].map(|asked| self.ask(asked, &board));
        let status = status.map(|text| escaped(&text));
        let info = self.shared.info();
        let mut words = info.split(' ');
        let mut rows = String::new();
        while let (Some(name), Some(value)) = (words.next(), words.next()) {
            rows.push_str(&format!("<tr><th>{}</th><td>{value}</td></tr>\n", name.replace('_', " ")));
        }
        let ready =
            self.shared.hindrances().map(|why| if why.is_empty() { "ready".into() } else { why.join("\n") });
        let rows = rows + &self.partitions();
        let page = HTML.replace("@ready@", &escaped(&or_why(ready)));
        let page = page.replace("@rows@", &rows).replace("@status@", &or_why(status));
        Ok(page.replace("@picture@", &or_why(picture)))
    }

    /// A row for each partition, and one for the bus.
    fn partitions(&self) -> String {
        let silence = self.shared.node.silence().as_secs();
        let mut rows = format!("<tr><th>bus last heard</th><td>{silence} s ago</td></tr>\n");
        for (part, why) in self.shared.watch.states() {
            let state = if why.is_none() { "up" } else { "down" };
            rows.push_str(&format!("<tr><th>partition {part}</th><td>{state}</td></tr>\n"));
        }
        rows
    }

    /// What the program says of a board. It is asked again if the board is another one.
    fn ask(&self, asked: Asked, board: &[u8]) -> Done<String> {
        let mut said = self.said.lock().unwrap_or_else(PoisonError::into_inner);
        let last = &mut said[asked as usize];
        if last.text.is_empty() || last.board != board {
            let text = self.run(asked, board)?;
            *last = Said { board: board.to_vec(), text };
        }
        Ok(last.text.clone())
    }

    fn run(&self, asked: Asked, board: &[u8]) -> Done<String> {
        let name = match asked {
            Asked::Status => "status",
            Asked::Picture => "picture",
        };
        let mut child = Command::new(&self.program)
            .args([name, &self.first, &self.first, "-"])
            .stdin(Stdio::piped())
            .stdout(Stdio::piped())
            .stderr(Stdio::piped())
            .spawn()
            .trying(|| format!("--program {}", self.program))?;
        if let Some(mut input) = child.stdin.take() {
            // If it ends before it has read all, its output says why.
            let _ = input.write_all(board);
        }
        let output = child.wait_with_output()?;
        if !output.status.success() {
            let why = String::from_utf8_lossy(&output.stderr).into_owned();
            return Err(Fault::new(format!("{} {name}: {}", self.program, why.trim_end())));
        }
        Ok(String::from_utf8_lossy(&output.stdout).into_owned())
    }
}

impl Site for Page {
    fn answer(&self, path: &str) -> Answer {
        match path {
            "/ready" => match self.shared.hindrances() {
                Ok(why) if !why.is_empty() => Answer::down(&why.join("\n")),
                ready => Answer::text(ready.map(|_| "ready\n")),
            },
            "/" => Answer::of("text/html; charset=utf-8", self.html()),
            "/metrics" => Answer::metrics(self.shared.metrics()),
            "/picture.svg" => Answer::of("image/svg+xml", self.say(Asked::Picture)),
            "/status" => Answer::text(self.say(Asked::Status)),
            "/board" => Answer::of("application/octet-stream", self.board()),
            _ => Answer::missing("/  /metrics  /picture.svg  /status  /board  /ready"),
        }
    }
}

fn escaped(text: &str) -> String {
    text.replace('&', "&amp;").replace('<', "&lt;")
}
