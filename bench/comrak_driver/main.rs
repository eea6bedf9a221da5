//! comrak as a filter, with nothing beyond CommonMark: it reads, writes and ends as comrak's own command does.

use std::io::{BufWriter, Error, Read, Write};

fn main() -> Result<(), Error> {
    let mut text = String::new();
    std::io::stdin().read_to_string(&mut text)?;
    let mut options = comrak::Options::default();
    options.render.r#unsafe = true;
    let arena = comrak::Arena::new();
    let tree = comrak::parse_document(&arena, &text, &options);
    let mut output = BufWriter::new(std::io::stdout().lock());
    fmt2io::write(&mut output, |writer| comrak::format_html(tree, &options, writer))?;
    output.flush()?;
    std::process::exit(0)
}
