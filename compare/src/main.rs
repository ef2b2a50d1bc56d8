//! The port beside the Rust original.
//!
//!     compare check [COUNT]          every comparison; COUNT random calls of each entry
//!     compare bench [WORD]..         times of the port and of the Rust, in one process; only the lines
//!                                    whose label (such as `remove_orphans silks 512`) has every WORD
//!     compare differences            what the Rust does where the specification refuses
//!     compare vectors CRATES         writes the stored answers, each over its file below CRATES
//!     compare cases ENTRY COUNT SEED [SIDE]
//!                                    prints random cases with the reference's answers; with SIDE
//!                                    the sheets are SIDE x SIDE

mod bench;
mod call;
mod cases;
mod check;
mod differences;
mod judge;
mod lend;
mod port;
#[cfg(feature = "stand-in")]
mod stand_in;
mod vectors;

use call::ENTRIES;

fn main() {
    let args: Vec<String> = std::env::args().skip(1).collect();
    let words: Vec<&str> = args.iter().map(String::as_str).collect();
    let number = |text: &str| text.parse::<u64>().expect("a number");
    match words.as_slice() {
        ["check"] => std::process::exit(check::all(20_000).min(1) as i32),
        ["check", count] => std::process::exit(check::all(number(count) as usize).min(1) as i32),
        ["bench", words @ ..] => bench::all(words),
        ["differences"] => differences::all(),
        ["vectors", crates] => vectors::write_all(crates),
        ["cases", entry, count, seed, side @ ..] => {
            let entry = ENTRIES.iter().find(|e| e.1 == *entry).expect("an entry").0;
            let side = side.first().map(|text| number(text) as usize);
            vectors::print(entry, number(count) as usize, number(seed), side);
        }
        _ => {
            eprintln!(
                "usage: compare check [COUNT] | bench [WORD].. | differences | vectors CRATES | cases ENTRY COUNT SEED [SIDE]"
            );
            std::process::exit(2);
        }
    }
}
