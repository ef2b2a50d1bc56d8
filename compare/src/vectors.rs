//! Stored answers: calls with what the reference gives, as text (see vectors/README.md).

use crate::call::{Arg, Call, Entry, ENTRIES};
use crate::cases::{
    named, pairs, random, random_sized, singles, sound, Rng, SPARE_BYTE, SPARE_CELL, SPARE_REAL, SPARE_WORD,
};
use std::io::Write;
use std::path::PathBuf;

fn spare(arg: &Arg) -> u64 {
    match arg {
        Arg::Num(_) | Arg::Work(_) => 0,
        Arg::Bytes(_) => u64::from(SPARE_BYTE),
        Arg::Cells(_) => SPARE_CELL as u64,
        Arg::Words(_) => u64::from(SPARE_WORD),
        Arg::Reals(_) => SPARE_REAL.to_bits(),
    }
}

fn push(words: &mut Vec<String>, arg: &Arg, values: &[u64]) {
    words.push(format!("{:x}", values.len()));
    let real = matches!(arg, Arg::Reals(_));
    words.extend(values.iter().map(|v| if real { format!("{v:016x}") } else { format!("{v:x}") }));
}

/// One case: how many numbers follow, the arguments, the answer, and each list's changed part.
pub fn line(call: &Call) -> String {
    let mut words = Vec::new();
    for arg in &call.args {
        match arg {
            Arg::Num(n) => words.push(format!("{n:x}")),
            Arg::Work(l) => words.push(format!("{:x}", l.len())),
            list => {
                let values = list.numbers();
                let given = values.iter().rposition(|&v| v != spare(list)).map_or(0, |p| p + 1);
                words.push(format!("{:x}", values.len()));
                push(&mut words, list, &values[..given]);
            }
        }
    }
    let mut after = call.clone();
    words.push(format!("{:x}", after.judged()));
    for (old, new) in call.args.iter().zip(&after.args) {
        if matches!(old, Arg::Num(_) | Arg::Work(_)) {
            continue;
        }
        let (old, values) = (old.numbers(), new.numbers());
        let changed = (0..values.len()).rev().find(|&i| old[i] != values[i]).map_or(0, |p| p + 1);
        push(&mut words, new, &values[..changed]);
    }
    format!("{:x} {}\n", words.len(), words.join(" "))
}

/// The stored calls of an entry: the named ones, a sound one, every damage, pairs, random ones.
fn stored(entry: Entry) -> Vec<Call> {
    let mut calls = named(entry);
    calls.push(sound(entry));
    calls.extend(singles(entry).into_iter().map(|c| c.0));
    calls.extend(pairs(entry, true));
    let rng = &mut Rng(entry as u64);
    let more = match entry {
        Entry::Run | Entry::AddOutline | Entry::RemoveOrphans => 150,
        Entry::ApplySaturation => 200,
        _ => 250,
    };
    calls.extend((0..more).map(|_| random(rng, entry)));
    calls
}

/// The file of an entry's stored answers: it stands beside the program that replays it.
fn place(crates: &str, name: &str) -> PathBuf {
    std::fs::read_dir(crates)
        .expect("the crates")
        .map(|entry| entry.expect("a crate").path().join(format!("data/{name}.txt")))
        .find(|path| path.exists())
        .expect("a file of stored answers")
}

/// Writes one file for each entry, over the one that is there.
pub fn write_all(crates: &str) {
    for (entry, name) in ENTRIES {
        let calls = stored(entry);
        let text: String = calls.iter().map(line).collect();
        println!("{name}: {} cases, {} bytes", calls.len(), text.len());
        std::fs::write(place(crates, name), text).expect("a file of stored answers");
    }
}

/// Prints `count` random cases of an entry, on sheets of one side or of any.
pub fn print(entry: Entry, count: usize, seed: u64, side: Option<usize>) {
    let rng = &mut Rng(seed);
    let mut out = std::io::stdout().lock();
    for _ in 0..count {
        let call = match side {
            Some(n) => random_sized(rng, entry, n, n),
            None => random(rng, entry),
        };
        out.write_all(line(&call).as_bytes()).expect("standard output");
    }
}
