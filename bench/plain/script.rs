//! Answers commands, one a line, as `tool_script` does. The answer to a command that succeeds is the same.
use crate::sqlite::Database;
use std::io::{self, BufRead, Write};

/// The number of a driver or of an entry, or `None` if the text is no positive number.
pub fn number(word: &str) -> Option<u32> {
    word.parse().ok().filter(|number| *number > 0)
}

/// The text and the status of a command with a bad number.
pub fn bad_number() -> (String, u8) {
    ("N1 bad number\n".to_string(), 1)
}

/// The text and the status of a command: its text if it succeeded, else `refused`.
pub fn status_of(text: Option<String>) -> (String, u8) {
    text.map_or(("refused\n".to_string(), 1), |text| (text, 0))
}

/// Answers each line of standard input by its text and its status, then closes the archive.
pub fn answer_lines(mut archive: Database, answer_to: impl Fn(&mut Database, &str) -> (String, u8)) {
    println!("status 0");
    for line in io::stdin().lock().lines() {
        let (text, status) = answer_to(&mut archive, &line.unwrap());
        print!("{text}status {status}\n");
        io::stdout().flush().unwrap();
    }
    archive.close();
}
