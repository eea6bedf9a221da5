//! Writes the HTML of standard input: cargo run --example render < FILE
use std::io::{self, Read, Write};
use std::process::ExitCode;

fn main() -> io::Result<ExitCode> {
    let mut text = Vec::new();
    io::stdin().read_to_end(&mut text)?;
    match cmk::html(&text, &cmk::Options { strike: true, ..Default::default() }) {
        Ok(html) => io::stdout().write_all(html.as_bytes()).map(|()| ExitCode::SUCCESS),
        Err(error) => {
            eprintln!("{error}");
            Ok(ExitCode::FAILURE)
        }
    }
}
