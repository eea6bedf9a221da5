//! Calls libcmk for .ci/embedding by bindings/rust.
//!
//!   call html|tree|json|rewrite BYTES BLOCKS INLINES FLAGS     on standard input: its output, or the line of its fault and status 1;
//!                     FLAGS has 0 or 1 for each of older, strike, no_html and web_links
//!   call threads      four threads at once
use std::io::{self, Read, Write};
use std::process::ExitCode;

fn threads() -> ExitCode {
    let text = "> *a*\n".repeat(200);
    let html = || cmk::html(&text, &cmk::Options::default()).map(|html| html.to_string());
    let wanted = html();
    let work = || (0..200).all(|_| html() == wanted);
    let is_same = std::thread::scope(|scope| {
        let started: Vec<_> = (0..4).map(|_| scope.spawn(work)).collect();
        started.into_iter().all(|it| it.join().unwrap_or(false))
    });
    if is_same { ExitCode::SUCCESS } else { ExitCode::FAILURE }
}

fn main() -> io::Result<ExitCode> {
    let words: Vec<String> = std::env::args().collect();
    if words.len() < 6 {
        return Ok(threads());
    }
    let number = |at: usize| words[at].parse().expect("a number");
    let flags: Vec<bool> = words[5].chars().map(|it| it == '1').collect();
    let options = cmk::Options {
        bytes: number(2),
        blocks: number(3),
        inlines: number(4),
        older: flags[0],
        strike: flags[1],
        no_html: flags[2],
        web_links: flags[3],
    };
    let mut text = Vec::new();
    io::stdin().read_to_end(&mut text)?;
    let given = match words[1].as_str() {
        "html" => cmk::html(&text, &options),
        "tree" => cmk::tree(&text, &options),
        "json" => cmk::json(&text, &options),
        _ => cmk::rewrite(&text, &options),
    };
    match given {
        Ok(output) => io::stdout().write_all(output.as_bytes()).map(|()| ExitCode::SUCCESS),
        Err(error) => {
            eprintln!("{error}");
            Ok(ExitCode::FAILURE)
        }
    }
}
