//! Lists the draft on standard input within the small limits, with `--large` within the large ones. `--many` lists a stream of drafts, `--cases` answers a stream
//! of drafts and `--listings` one of listings, each with lent buffers, and `--self-test` runs the
//! drafts and listings with known results.

use std::io::{self, Read, Write};

fn main() -> io::Result<()> {
    let mode = std::env::args().nth(1);
    if mode.as_deref() == Some("--self-test") {
        let failed = partner::known_results::failures() + partner::known_listings::failures();
        std::process::exit(i32::from(failed > 0));
    }
    let mut input = Vec::new();
    io::stdin().read_to_end(&mut input)?;
    let answer = match mode.as_deref() {
        None => partner::listing(&input, partner::Limits::SMALL),
        Some("--large") => partner::listing(&input, partner::Limits::LARGE),
        Some("--many") => partner::streams::many(&input).ok_or(io::ErrorKind::InvalidData)?,
        Some("--cases") => partner::streams::cases(&input).ok_or(io::ErrorKind::InvalidData)?,
        Some("--listings") => {
            partner::streams::listings(&input).ok_or(io::ErrorKind::InvalidData)?
        }
        Some(_) => return Err(io::ErrorKind::InvalidInput.into()),
    };
    io::stdout().write_all(&answer)
}
