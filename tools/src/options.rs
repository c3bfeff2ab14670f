//! What is asked for on the command line.

use crate::source::File;
use std::ffi::{OsStr, OsString};
use std::path::PathBuf;

#[derive(Debug, PartialEq, Eq)]
pub enum Command {
    /// The file may be told by another name.
    Explain { file: File, name: Option<String> },
    Check { files: Vec<File> },
    Trace { file: File, seed: Option<u64>, calls: bool },
    Draw { file: File, line: u32, steps: Option<u32>, seed: Option<u64>, folder: PathBuf },
    Tokens { file: File },
}

/// The options of all commands; each command takes some of them.
#[derive(Default)]
struct Options {
    files: Vec<File>,
    seed: Option<u64>,
    steps: Option<u32>,
    exec: Option<u32>,
    folder: Option<PathBuf>,
    name: Option<String>,
    calls: bool,
}

/// The command that the words after the program's name ask for; or what is wrong with them.
pub fn parse(words: &[OsString]) -> Result<Command, String> {
    let (command, rest) = words.split_first().ok_or("no command")?;
    let options = Options::parse(rest)?;
    match command.to_str() {
        Some("--explain") => {
            let options = options.allowing(&["--as"])?;
            Ok(Command::Explain { file: options.one_file()?, name: options.name })
        }
        Some("--check") => options.allowing(&[])?.some_files().map(|files| Command::Check { files }),
        Some("--trace") => {
            let options = options.allowing(&["--seed", "--calls"])?;
            Ok(Command::Trace { file: options.one_file()?, seed: options.seed, calls: options.calls })
        }
        Some("--draw") => {
            let options = options.allowing(&["--seed", "--steps", "--exec", "--to"])?;
            let (file, folder) = (options.one_file()?, options.folder.unwrap_or_else(|| PathBuf::from(".")));
            Ok(Command::Draw { file, line: options.exec.unwrap_or(0), steps: options.steps, seed: options.seed, folder })
        }
        Some("--tokens") => options.allowing(&[])?.one_file().map(|file| Command::Tokens { file }),
        _ => Err(format!("{} is no command", command.to_string_lossy())),
    }
}

impl Options {
    fn parse(words: &[OsString]) -> Result<Options, String> {
        let mut options = Options::default();
        let mut words = words.iter();
        while let Some(word) = words.next() {
            let mut value = || words.next().ok_or(format!("{} needs a value", word.to_string_lossy()));
            match word.to_str() {
                Some("--seed") => options.seed = Some(number(word, value()?)?),
                Some("--steps") => options.steps = Some(number(word, value()?)?),
                Some("--exec") => options.exec = Some(number(word, value()?)?),
                Some("--to") => options.folder = Some(PathBuf::from(value()?)),
                Some("--as") => options.name = Some(value()?.to_string_lossy().into_owned()),
                Some("--calls") => options.calls = true,
                Some(other) if other.starts_with("--") => return Err(format!("{other} is no option")),
                _ => options.files.push(File::new(word)),
            }
        }
        Ok(options)
    }

    /// Refuses the options that a command does not take.
    fn allowing(self, allowed: &[&str]) -> Result<Options, String> {
        let given = [
            ("--seed", self.seed.is_some()),
            ("--steps", self.steps.is_some()),
            ("--exec", self.exec.is_some()),
            ("--to", self.folder.is_some()),
            ("--as", self.name.is_some()),
            ("--calls", self.calls),
        ];
        match given.iter().find(|(name, is)| *is && !allowed.contains(name)) {
            Some((name, _)) => Err(format!("{name} is no option of this command")),
            None => Ok(self),
        }
    }

    fn one_file(&self) -> Result<File, String> {
        match &self.files[..] {
            [] => Ok(File::StandardInput),
            [file] => Ok(file.clone()),
            _ => Err("one file at a time".to_owned()),
        }
    }

    fn some_files(self) -> Result<Vec<File>, String> {
        match self.files.is_empty() {
            true => Err("no file to check".to_owned()),
            false => Ok(self.files),
        }
    }
}

fn number<N: std::str::FromStr>(option: &OsStr, word: &OsStr) -> Result<N, String> {
    let told = || format!("{} takes a number, and {} is none, or too large", option.to_string_lossy(), word.to_string_lossy());
    word.to_str().and_then(|word| word.parse().ok()).ok_or_else(told)
}

#[cfg(test)]
mod tests {
    use super::*;

    fn parsed(line: &str) -> Result<Command, String> {
        parse(&line.split_whitespace().map(OsString::from).collect::<Vec<_>>())
    }

    fn file(name: &str) -> File {
        File::Named(PathBuf::from(name))
    }

    #[test]
    fn commands() {
        assert_eq!(parsed("--explain a.ep"), Ok(Command::Explain { file: file("a.ep"), name: None }));
        assert_eq!(parsed("--explain --as b"), Ok(Command::Explain { file: File::StandardInput, name: Some("b".to_owned()) }));
        assert_eq!(parsed("--check a -"), Ok(Command::Check { files: vec![file("a"), File::StandardInput] }));
        assert_eq!(parsed("--trace a --seed 7 --calls"), Ok(Command::Trace { file: file("a"), seed: Some(7), calls: true }));
        let drawn = Command::Draw { file: file("a"), line: 1, steps: Some(9), seed: None, folder: PathBuf::from("out") };
        assert_eq!(parsed("--draw --exec 1 --steps 9 --to out a"), Ok(drawn));
    }

    #[test]
    fn wrong_uses() {
        for line in ["", "--check", "--explain a b", "--trace --seed", "--trace --seed x a", "--trace --seed -1 a", "--check --seed 1 a", "--draw --calls a", "--run a", "--trace --fast a"] {
            assert!(parsed(line).is_err(), "{line}");
        }
    }
}
