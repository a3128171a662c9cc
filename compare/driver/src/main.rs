//! The comparison with the Rust, and the benchmark. compare/README.md says what each command is for.
mod bench;
mod compare;
mod generate;
mod known;
mod mutate;
mod oracle;
mod ours;
mod records;
mod sample;
mod walk;

use compare::{Comparison, Tally};
use generate::*;
use ours::*;
use std::process::exit;

fn main() {
    let words: Vec<String> = std::env::args().skip(1).collect();
    let words: Vec<&str> = words.iter().map(String::as_str).collect();
    match words[..] {
        ["compare", modules] => {
            let modules = modules.parse().expect("how many modules");
            exit(!compared(&TRUE, modules).report() as i32)
        }
        ["noticed"] => exit(!noticed(&TRUE) as i32),
        ["wrong"] => exit(!wrong_programs_noticed() as i32),
        ["sample"] => print!("{}", sample::list()),
        ["bench"] => bench::table(),
        ["bench", shape, size, what, rounds] => {
            bench::one(shape, size.parse().expect("bytes"), what, rounds.parse().expect("rounds"))
        }
        _ => {
            eprintln!("compare MODULES | noticed | wrong | sample | bench [SHAPE BYTES WHAT ROUNDS]");
            exit(2)
        }
    }
}

/// So many random modules with their damaged copies, changed tables and walks; then every short tail, then the limits of size.
fn compared(side: &Side, modules: usize) -> Tally {
    let mut comparison = Comparison::new(side);
    random(&mut comparison, modules);
    short_tails(|file| comparison.file(file));
    limits(&mut comparison);
    comparison.tally
}

fn random(comparison: &mut Comparison, modules: usize) {
    let mut rng = Rng(1);
    let mut other = Vec::new();
    for k in 0..modules {
        let most = Most { text: rng.pick(&[3, 6, 70]), ..SMALL };
        let wild = rng.pick(&[0, 8, 16]);
        let file = module(&mut rng, most, wild);
        comparison.file(&file);
        if k % 8 == 0 {
            damaged(&mut rng, &file, &other, |file| comparison.file(file));
        }
        if let Some(t) = loaded(&file) {
            for _ in 0..4 {
                comparison.walk(&t, state(&mut rng), &events(&mut rng, &t));
                let t = changed(&mut rng, &t);
                comparison.tables(&t);
                comparison.walk(&t, state(&mut rng), &events(&mut rng, &t));
            }
        }
        other = file;
    }
}

/// Whether a difference shows: on few modules, else on more, else on the short tails.
fn noticed(side: &Side) -> bool {
    let mut comparison = Comparison::new(side);
    for modules in [100, 3000] {
        if comparison.tally.differences.is_empty() {
            random(&mut comparison, modules);
        }
    }
    if comparison.tally.differences.is_empty() {
        short_tails(|file| comparison.file(file));
    }
    let Some((kind, (count, ..))) = comparison.tally.differences.first_key_value() else {
        println!("NOT NOTICED");
        return false;
    };
    println!("noticed: {kind} ({count} times)");
    true
}

fn wrong_programs_noticed() -> bool {
    let all = mutate::WRONG.iter().map(|(name, side)| {
        print!("{name}: ");
        noticed(side)
    });
    all.filter(|noticed| !noticed).count() == 0
}

/// The largest file, and what is larger.
fn limits(comparison: &mut Comparison) {
    let mut file = unhex("C0 0C 80 30 00 00 00 00 00 00 7F 7F 00 00");
    file.resize(FILE_LIMIT, 0);
    comparison.file(&file);
    comparison.too_large();
    comparison.too_short();
}
