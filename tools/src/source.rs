//! A script's text, and what it is called.

use std::ffi::OsStr;
use std::fmt;
use std::io::{self, Read};
use std::path::PathBuf;

/// Where a script stands.
#[derive(Clone, Debug, PartialEq, Eq)]
pub enum File {
    StandardInput,
    Named(PathBuf),
}

impl File {
    /// A `-` is standard input.
    pub fn new(word: &OsStr) -> File {
        match word == "-" {
            true => File::StandardInput,
            false => File::Named(PathBuf::from(word)),
        }
    }

    /// The name without folder and ending, for what is made of the script.
    pub fn stem(&self) -> PathBuf {
        let stem = match self {
            File::Named(path) => path.file_stem(),
            File::StandardInput => None,
        };
        PathBuf::from(stem.unwrap_or(OsStr::new("script")))
    }
}

impl fmt::Display for File {
    fn fmt(&self, f: &mut fmt::Formatter<'_>) -> fmt::Result {
        match self {
            File::StandardInput => f.write_str("standard input"),
            File::Named(path) => write!(f, "{}", path.display()),
        }
    }
}

pub struct Source {
    pub name: String,
    pub text: Vec<u8>,
}

impl Source {
    pub fn read(file: &File) -> io::Result<Source> {
        let mut text = Vec::new();
        match file {
            File::StandardInput => io::stdin().read_to_end(&mut text)?,
            File::Named(path) => std::fs::File::open(path)?.read_to_end(&mut text)?,
        };
        Ok(Source { name: file.to_string(), text })
    }
}
