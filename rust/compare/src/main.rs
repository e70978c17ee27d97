//! Compares every byte of the proved reader's answer, through its entries for C, with the partner's, every word of its
//! tokens and its tree, and every word of what it loads. Use: compare RUN..., where RUN is
//!   bytes     every string of a few bytes
//!   lexemes   every string of a few lexemes, in telling surroundings
//!   utf8      every string of a few bytes in comments, every character, and sequences that are nearly UTF-8
//!   limits    drafts at each limit, and buffers of every length
//!   rooms     drafts of some size with buffers for tokens and for their starts of every length around what either takes
//!   faults    array lengths around 64 bits, and several of the refusals 9 to 14 and 19 in one draft
//!   files     names of types that are reserved or nearly so, and files of 0 to 30 items, whole and damaged
//!   stream    the drafts on standard input: length, line end, bytes
//!   shapes    listings of records with every few children
//!   listings  the listings of the drafts on standard input, whole and damaged
//!   large     drafts at the large limits and around numbers of four digits, and the listings of those that are accepted
//!   contracts SEED COUNT
//!             so many random files of up to a megabyte, some over the limits and some damaged, and their listings
//! Every draft that goes through the small entry goes through the two with the large limits too, that which keeps whole tokens
//! and that which keeps their starts alone, some or all of them with buffers of several lengths. The library's answers by these
//! two are compared with each other as well, wherever both have room for the tokens. Listings are compared in all three forms,
//! of 36, 41 and 49 bytes a line, and with lines of several.
//! Writes one line a run and the total. After a difference, the smallest such draft or listing stands on standard
//! error.

mod answers;
mod comparison;
mod contracts;
mod damage;
mod faults;
mod files;
mod grafts;
mod large;
mod lexemes;
mod limits;
mod listings;
mod loading;
mod random;
mod rooms;
mod shapes;
mod strings;
mod trees;
mod utf8;

use comparison::Comparison;
use loading::Loading;
use std::io::Read;
use std::process::ExitCode;

/// Drafts compared at the small entry, drafts compared at those with the large limits and listings, and how many of each were
/// accepted; and how many answers with starts alone were compared with one with whole tokens.
#[derive(Default)]
struct Total {
    drafts: [u64; 2],
    large: [u64; 2],
    starts: u64,
    listings: [u64; 2],
    differs: bool,
}

fn main() -> ExitCode {
    let mut total = Total::default();
    let mut arguments = std::env::args().skip(1);
    while let Some(name) = arguments.next() {
        if total.run(name.clone(), &mut arguments).is_none() {
            eprintln!("compare: no such run, or no whole stream of drafts: {name}");
            return ExitCode::from(2);
        }
    }
    let Total {
        drafts: [drafts, accepted],
        large: [large, large_accepted],
        starts,
        listings: [listings, loaded],
        differs,
    } = total;
    println!(
        "compare: total: {drafts} drafts, {accepted} accepted, {large} within the large limits, {large_accepted} accepted, \
         {starts} with starts alone, {listings} listings, {loaded} accepted"
    );
    // No draft and no listing at all is no comparison.
    ExitCode::from(u8::from(differs || drafts + listings == 0))
}

impl Total {
    /// A run of that name, which may take more arguments. It has drafts or listings or both.
    fn run(&mut self, mut name: String, rest: &mut impl Iterator<Item = String>) -> Option<()> {
        let (mut drafts, mut listings) = (Comparison::new(), Loading::new());
        match name.as_str() {
            "bytes" => strings::bytes(&mut drafts),
            "lexemes" => lexemes::all(&mut drafts),
            "utf8" => utf8::all(&mut drafts),
            "limits" => limits::all(&mut drafts),
            "rooms" => rooms::all(&mut drafts),
            "faults" => faults::all(&mut drafts),
            "files" => files::all(&mut drafts),
            "stream" => stream(&mut drafts)?,
            "shapes" => shapes::all(&mut listings),
            "listings" => listings::all(&standard_input()?, &mut listings)?,
            "large" => large::all(&mut drafts, &mut listings),
            "contracts" => {
                let (seed, count) = (rest.next()?, rest.next()?.parse().ok()?);
                contracts::all(&seed, count, &mut drafts, &mut listings);
                name = format!("contracts, seed {seed}");
            }
            _ => return None,
        }
        if drafts.drafts > 0 {
            self.add_drafts(&name, &drafts);
        }
        if listings.listings() > 0 {
            self.add_listings(&name, &listings);
        }
        Some(())
    }

    fn add_drafts(&mut self, name: &str, run: &Comparison) {
        let (drafts, accepted) = (run.drafts, run.accepted);
        let (large, large_accepted, starts) = (run.large, run.large_accepted, run.starts);
        let answer = answer(run.agrees());
        println!(
            "compare: {name}: {drafts} drafts, {accepted} accepted, \
             {large} within the large limits, {large_accepted} accepted, {starts} with starts alone, {answer}"
        );
        run.show_difference();
        add(&mut self.drafts, [drafts, accepted]);
        add(&mut self.large, [large, large_accepted]);
        self.starts += starts;
        self.differs |= !run.agrees();
    }

    fn add_listings(&mut self, name: &str, run: &Loading) {
        let (listings, accepted) = (run.listings(), run.accepted);
        let [form, function, room] = run.refused;
        let answer = answer(run.agrees());
        println!(
            "compare: {name}: {listings} listings, {accepted} accepted, \
             {form} refused with 16, {function} with 17, {room} with 18, {answer}"
        );
        run.show_difference();
        add(&mut self.listings, [listings, accepted]);
        self.differs |= !run.agrees();
    }
}

fn add(sum: &mut [u64; 2], [all, accepted]: [u64; 2]) {
    sum[0] += all;
    sum[1] += accepted;
}

fn answer(agrees: bool) -> &'static str {
    if agrees {
        "no difference"
    } else {
        "DIFFERENT"
    }
}

/// Compares the drafts on standard input; `None` where that is no whole stream.
fn stream(comparison: &mut Comparison) -> Option<()> {
    let input = standard_input()?;
    let mut rest = input.as_slice();
    while !rest.is_empty() {
        let draft = partner::streams::next_draft(&mut rest)?;
        comparison.check(draft, togmelic::MOST_BYTES);
    }
    Some(())
}

fn standard_input() -> Option<Vec<u8>> {
    let mut input = Vec::new();
    std::io::stdin().read_to_end(&mut input).ok()?;
    Some(input)
}
