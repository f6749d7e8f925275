//! The command as a whole: its line, what it says and draws, and what it refuses.

mod lines;
mod pages;
mod run;
mod samples;
