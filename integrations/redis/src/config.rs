//! A file of options, in a part of TOML: texts, whole numbers, true and false, lists of them, and tables of texts.

use crate::args::Usage;

/// What is given for a name.
#[derive(Debug, PartialEq)]
enum Value {
    /// A text, or the digits of a number.
    Text(String),
    Flag(bool),
    List(Vec<Value>),
    Table(Vec<(String, Value)>),
}

/// The options of a text: their names, and what the command line would have after them.
///
/// # Errors
///
/// The text has another form, or names what the program does not know.
pub fn read(text: &str, usage: &Usage) -> Result<Vec<(String, String)>, String> {
    let mut text = Text { rest: text, line: 1 };
    let mut names: Vec<String> = Vec::new();
    let mut all = Vec::new();
    while text.begins_line() {
        let line = text.line;
        let (name, value) = text.entry().map_err(|why| format!("line {}: {why}", text.line))?;
        let given = if names.contains(&name) { Err("is given twice") } else { options(&name, value, usage) };
        all.extend(given.map_err(|why| format!("line {line}: `{name}` {why}"))?);
        names.push(name);
    }
    Ok(all)
}

/// An entry, as the command line would have it.
fn options(name: &str, value: Value, usage: &Usage) -> Result<Vec<(String, String)>, &'static str> {
    let own = |text: String| (name.to_string(), text);
    let text = |value| match value {
        Value::Text(text) => Ok(text),
        _ => Err("has a value of another kind"),
    };
    if usage.flags.contains(&name) {
        return match value {
            Value::Flag(is_on) => Ok(is_on.then(|| own(String::new())).into_iter().collect()),
            _ => Err("is true or false"),
        };
    }
    if !usage.options.contains(&name) || name == "config" {
        return Err("is not known");
    }
    match value {
        Value::List(items) => items.into_iter().map(|item| text(item).map(own)).collect(),
        Value::Table(pairs) => {
            let pair = |(key, value)| Ok(own(format!("{key}={}", text(value)?)));
            pairs.into_iter().map(pair).collect()
        }
        value => Ok(vec![own(text(value)?)]),
    }
}

/// What is left of a text, and in which line that begins.
struct Text<'a> {
    rest: &'a str,
    line: usize,
}

impl<'a> Text<'a> {
    /// Whether an entry follows, which it then begins with.
    fn begins_line(&mut self) -> bool {
        self.skip(true);
        !self.rest.is_empty()
    }

    /// Passes over blanks and comments, and over ends of lines too.
    fn skip(&mut self, with_lines: bool) {
        loop {
            self.rest = self.rest.trim_start_matches([' ', '\t', '\r']);
            if let Some(comment) = self.rest.strip_prefix('#') {
                self.rest = comment.find('\n').map_or("", |end| &comment[end..]);
            } else if with_lines && self.takes("\n") {
                self.line += 1;
            } else {
                return;
            }
        }
    }

    fn takes(&mut self, mark: &str) -> bool {
        let rest = self.rest.strip_prefix(mark);
        self.rest = rest.unwrap_or(self.rest);
        rest.is_some()
    }

    fn needs(&mut self, mark: &str) -> Result<(), String> {
        self.skip(false);
        self.takes(mark).then_some(()).ok_or_else(|| format!("`{mark}` is missing"))
    }

    /// The letters at the beginning that are of a kind.
    fn word(&mut self, is_of: impl Fn(char) -> bool) -> &'a str {
        let end = self.rest.find(|letter| !is_of(letter)).unwrap_or(self.rest.len());
        let (word, rest) = self.rest.split_at(end);
        self.rest = rest;
        word
    }

    /// `NAME = VALUE`, or `[NAME]` and the lines of that table.
    fn entry(&mut self) -> Result<(String, Value), String> {
        if !self.takes("[") {
            let pair = self.pair()?;
            self.end()?;
            return Ok(pair);
        }
        let name = self.key()?;
        self.needs("]")?;
        self.end()?;
        let mut pairs = Vec::new();
        while self.begins_line() && !self.rest.starts_with('[') {
            pairs.push(self.pair()?);
            self.end()?;
        }
        Ok((name, Value::Table(pairs)))
    }

    fn end(&mut self) -> Result<(), String> {
        self.skip(false);
        let is_end = self.rest.is_empty() || self.rest.starts_with('\n');
        is_end.then_some(()).ok_or_else(|| "more follows than one value".into())
    }

    fn pair(&mut self) -> Result<(String, Value), String> {
        let key = self.key()?;
        self.needs("=")?;
        Ok((key, self.value()?))
    }

    fn key(&mut self) -> Result<String, String> {
        self.skip(false);
        if self.rest.starts_with(['"', '\'']) {
            return self.quoted();
        }
        let key = self.word(|letter| letter.is_ascii_alphanumeric() || "-_".contains(letter));
        (!key.is_empty()).then(|| key.to_string()).ok_or_else(|| "a name is missing".into())
    }

    fn value(&mut self) -> Result<Value, String> {
        self.skip(false);
        if self.rest.starts_with(['"', '\'']) {
            return self.quoted().map(Value::Text);
        }
        if self.takes("[") {
            return self.items("]", Text::value).map(Value::List);
        }
        if self.takes("{") {
            return self.items("}", Text::pair).map(Value::Table);
        }
        match self.word(|letter| letter.is_ascii_alphanumeric() || "+-._".contains(letter)) {
            "true" => Ok(Value::Flag(true)),
            "false" => Ok(Value::Flag(false)),
            digits if digits.bytes().next_back().is_some_and(|byte| byte.is_ascii_digit()) => {
                let is_number = digits.bytes().all(|byte| byte.is_ascii_digit() || byte == b'_');
                is_number.then(|| Value::Text(digits.replace('_', ""))).ok_or_else(|| not_known(digits))
            }
            other => Err(not_known(other)),
        }
    }

    /// What stands between commas, up to that mark.
    fn items<T>(&mut self, end: &str, item: fn(&mut Self) -> Result<T, String>) -> Result<Vec<T>, String> {
        let mut items = Vec::new();
        loop {
            self.skip(true);
            if self.takes(end) {
                return Ok(items);
            }
            if !items.is_empty() {
                self.needs(",")?;
                self.skip(true);
                if self.takes(end) {
                    return Ok(items);
                }
            }
            items.push(item(self)?);
        }
    }

    /// A text in one line. Between single quotes each letter is itself.
    fn quoted(&mut self) -> Result<String, String> {
        let is_plain = self.rest.starts_with('\'');
        let mut letters = self.rest[1..].char_indices();
        let mut text = String::new();
        while let Some((at, letter)) = letters.next() {
            match letter {
                '\n' => break,
                '\'' if is_plain => return self.pass(at, text),
                '"' if !is_plain => return self.pass(at, text),
                '\\' if !is_plain => match letters.next() {
                    Some((_, next @ ('"' | '\\'))) => text.push(next),
                    Some((_, 't')) => text.push('\t'),
                    _ => return Err("after `\\` comes `\"`, `\\` or `t`".into()),
                },
                letter => text.push(letter),
            }
        }
        Err("a text has no end in its line".into())
    }

    /// Passes over a quoted text, whose last quote is at that place after the first one.
    fn pass(&mut self, at: usize, text: String) -> Result<String, String> {
        self.rest = &self.rest[at + 2..];
        Ok(text)
    }
}

fn not_known(word: &str) -> String {
    format!("`{word}` is no text, number, list or table, and not true or false")
}

#[cfg(test)]
mod tests {
    use super::*;

    const USAGE: Usage = Usage {
        name: "test",
        help: "",
        options: &["listen", "part", "threads", "config"],
        flags: &["tls-bus", "tls-partitions"],
    };

    fn read_all(text: &str) -> Vec<String> {
        let all = read(text, &USAGE).unwrap();
        all.into_iter().map(|(name, value)| format!("{name} {value}")).collect()
    }

    #[test]
    fn options_are_read() {
        let text = "# a proxy\nlisten = \"a\\\"b\\\\c\" # where\nthreads=1_000\r\ntls-bus = true\ntls-partitions = false\n\n\
                    [part]\n1 = 'r1:1'\n\"2\" = \"r2:2\"\n";
        let wanted = ["listen a\"b\\c", "threads 1000", "tls-bus ", "part 1=r1:1", "part 2=r2:2"];
        assert_eq!(read_all(text), wanted);
        let wanted = ["part 1=a", "part 2=b"];
        assert_eq!(read_all("part = [\n  \"1=a\", # one\n  \"2=b\",\n]"), wanted);
        assert_eq!(read_all("part = { 1 = \"a\", 2 = \"b\" }\n"), wanted);
        assert!(read_all("").is_empty() && read_all("part = []").is_empty());
    }

    #[test]
    fn other_texts_are_refused() {
        for (text, why) in [
            ("\nlisten", "line 2: `=` is missing"),
            ("listen = ", "line 1: `` is no text"),
            ("listen = 1.5", "line 1: `1.5` is no text"),
            ("listen = \"a\nb\"", "line 1: a text has no end in its line"),
            ("listen = \"\"\"a\"\"\"", "line 1: more follows"),
            ("listen = \"\\u0041\"", "line 1: after `\\`"),
            ("listen = 'a' threads = 1", "line 1: more follows"),
            ("listen = 'a'\nlisten = 'b'", "line 2: `listen` is given twice"),
            ("listen = true", "line 1: `listen` has a value of another kind"),
            ("tls-bus = 1", "line 1: `tls-bus` is true or false"),
            ("port = 1", "line 1: `port` is not known"),
            ("config = 'a'", "line 1: `config` is not known"),
            ("[[part]]", "line 1: a name is missing"),
            ("[part\n1 = 'a'", "line 1: `]` is missing"),
            ("part = [[1]]", "line 1: `part` has a value of another kind"),
            ("part = [1", "line 1: `,` is missing"),
        ] {
            let said = read(text, &USAGE).unwrap_err();
            assert!(said.starts_with(why), "{text}: {said}");
        }
    }
}
