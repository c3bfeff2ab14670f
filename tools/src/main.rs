//! The command behind `./epass --explain`, `--check`, `--trace` and `--draw`.

use epass::{Script, SCRATCH_WORDS};
use epass_tools::draw::{draw, Pictures};
use epass_tools::explain::report;
use epass_tools::options::{parse, Command};
use epass_tools::page::{Page, Style};
use epass_tools::program::Program;
use epass_tools::progress::dumb_terminal;
use epass_tools::source::{File, Source};
use epass_tools::trace::Calls;
use epass_tools::{check, tokens, trace};
use std::ffi::OsString;
use std::fs;
use std::io::{self, BufWriter, IsTerminal, Write};
use std::path::Path;
use std::process::ExitCode;

/// How the command ends, but for success.
enum Fault {
    /// A script is refused; what is to be said of it is said.
    Refused,
    /// Wrong use, or a file that cannot be read: the message says which.
    Use(String),
    /// The output cannot be written.
    Output(io::Error),
}

impl From<io::Error> for Fault {
    fn from(fault: io::Error) -> Fault {
        Fault::Output(fault)
    }
}

fn main() -> ExitCode {
    let words: Vec<OsString> = std::env::args_os().skip(1).collect();
    let mut out = output();
    let ended = parse(&words).map_err(|fault| Fault::Use(format!("{fault}: ./epass --help tells the uses"))).and_then(|command| carry_out(command, &mut out));
    match ended.and_then(|()| Ok(out.flush()?)) {
        Ok(()) => ExitCode::SUCCESS,
        Err(Fault::Refused) => out.flush().map_or(ExitCode::from(3), |()| ExitCode::from(1)),
        Err(Fault::Use(message)) => {
            eprintln!("epass: {message}");
            ExitCode::from(2)
        }
        Err(Fault::Output(fault)) => {
            // Who reads a part and closes the pipe has what was wanted.
            if fault.kind() != io::ErrorKind::BrokenPipe {
                eprintln!("epass: the output cannot be written: {fault}");
            }
            ExitCode::from(3)
        }
    }
}

/// Standard output: line by line to a terminal, where progress may stand between two lines.
fn output() -> Box<dyn Write> {
    match io::stdout().is_terminal() {
        true => Box::new(io::stdout().lock()),
        false => Box::new(BufWriter::new(io::stdout().lock())),
    }
}

fn carry_out(command: Command, out: &mut impl Write) -> Result<(), Fault> {
    match command {
        Command::Explain { file, name } => {
            let source = read(&file)?;
            let source = Source { name: name.unwrap_or(source.name), ..source };
            let (told, accepted) = report(page(&source, &io::stdout()));
            out.write_all(told.as_bytes())?;
            accepted.then_some(()).ok_or(Fault::Refused)
        }
        Command::Check { files } => {
            let outcome = check::check(&files, out)?;
            match (outcome.unread, outcome.refused) {
                (true, _) => Err(Fault::Use("not every file was checked".to_owned())),
                (_, true) => Err(Fault::Refused),
                _ => Ok(()),
            }
        }
        Command::Trace { file, seed, calls } => {
            let source = read(&file)?;
            let program = accepted(&source, out)?;
            match calls {
                true => list_calls(&program, seed, out),
                false => Ok(trace::trace(&program, seed, out)?),
            }
        }
        Command::Draw { file, line, steps, seed, folder } => {
            let source = read(&file)?;
            let program = accepted(&source, out)?;
            let pictures = drawn(&program, line, steps, seed)?;
            write_pictures(&pictures, &folder.join(file.stem()), out)
        }
        Command::Tokens { file } => Ok(tokens::list(&read(&file)?.text, out)?),
    }
}

fn list_calls(program: &Program<'_>, seed: Option<u64>, out: &mut impl Write) -> Result<(), Fault> {
    let calls = Calls::new(program, seed).map_err(|refusal| Fault::Use(refusal.to_string()))?;
    let calls = calls.ok_or_else(|| Fault::Use("in a list of calls the text ends with a line feed, and this one has no room for it".to_owned()))?;
    out.write_all(&calls.list)?;
    // The list has no room for it: each line is a call.
    if let Some(seed) = seed {
        eprintln!("epass: seed {seed}");
    }
    if calls.cut > 0 {
        eprintln!("epass: the list ends {} calls before the run does, for it may not be longer", calls.cut);
    }
    Ok(())
}

fn drawn(program: &Program<'_>, line: u32, steps: Option<u32>, seed: Option<u64>) -> Result<Pictures, Fault> {
    match program.execs.len() {
        0 => Err(Fault::Use("the script has no exec line".to_owned())),
        n if n <= line as usize => Err(Fault::Use(format!("there is no exec line {line}: the last is {}", n - 1))),
        _ => draw(program, line, steps, seed).map_err(|refusal| Fault::Use(refusal.to_string())),
    }
}

/// Writes the pictures of a run beside each other, and prints their names.
fn write_pictures(pictures: &Pictures, path: &Path, out: &mut impl Write) -> Result<(), Fault> {
    for (what, picture) in [("configuration", &pictures.configuration), ("messages", &pictures.messages)] {
        let mut name = path.as_os_str().to_owned();
        name.push(format!(".{what}.svg"));
        let told = |fault: io::Error| io::Error::new(fault.kind(), format!("{}: {fault}", Path::new(&name).display()));
        fs::write(&name, picture).map_err(told)?;
        writeln!(out, "{}", Path::new(&name).display())?;
    }
    Ok(())
}

/// The page of a source, coloured where it goes to a terminal that shows colours, unless NO_COLOR says that it is not to be.
fn page<'s>(source: &'s Source, to: &impl IsTerminal) -> Page<'s> {
    let unwanted = std::env::var_os("NO_COLOR").is_some_and(|value| !value.is_empty());
    let style = if to.is_terminal() && !unwanted && !dumb_terminal() { Style::Coloured } else { Style::Plain };
    Page { name: &source.name, text: &source.text, style }
}

fn read(file: &File) -> Result<Source, Fault> {
    Source::read(file).map_err(|fault| Fault::Use(format!("{file}: {fault}")))
}

/// The program of a text that the check accepts; else its refusal is printed as a run prints it, and explained on standard error.
fn accepted<'s>(source: &'s Source, out: &mut impl Write) -> Result<Program<'s>, Fault> {
    let checked = Script::check(&source.text, vec![0; SCRATCH_WORDS]).and_then(|_| Program::read(&source.text));
    match checked {
        Ok(program) => Ok(program),
        Err(refusal) => {
            writeln!(out, "{refusal}")?;
            eprint!("{}", report(page(source, &io::stderr())).0);
            Err(Fault::Refused)
        }
    }
}
