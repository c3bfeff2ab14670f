//! For those who write scripts: refusals explained, traces, pictures. The verdicts and the steps are the proved library's; what is told of them is read off
//! its tables and the words of its runs.

pub mod cast;
pub mod check;
pub mod contexts;
pub mod diagnostic;
pub mod draw;
pub mod explain;
pub mod limits;
pub mod options;
pub mod page;
pub mod program;
pub mod progress;
pub mod random;
pub mod source;
pub mod state;
pub mod story;
pub mod telling;
pub mod tokens;
pub mod trace;
pub mod types;

#[cfg(test)]
mod constants;
