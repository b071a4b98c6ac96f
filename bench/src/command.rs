//! The words of the command line.

use crate::way::Way;

/// How the files are played, the limits of an ask, and the files' paths.
pub struct Command {
    pub way: Way,
    pub tries: u8,
    pub rounds: u16,
    pub files: Vec<String>,
}

impl Command {
    /// The command that the words say, or nothing where they say none.
    pub fn of(mut words: impl Iterator<Item = String>) -> Option<Command> {
        let way = Way::of(&words.next()?)?;
        let (mut tries, mut rounds, mut files) = (8, 64, Vec::new());
        while let Some(word) = words.next() {
            match word.as_str() {
                "--tries" => tries = words.next()?.parse().ok()?,
                "--rounds" => {
                    rounds = words.next()?.parse().ok().filter(|rounds| *rounds >= 1)?;
                }
                _ => files.push(word),
            }
        }
        let command = Command {
            way,
            tries,
            rounds,
            files,
        };
        (!command.files.is_empty()).then_some(command)
    }
}
