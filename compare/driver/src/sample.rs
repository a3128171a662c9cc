//! A sample of the oracle's answers as a list of cases, to be run with no Rust at hand. crates/run_cases/README.md has the form of a list.
//!
//! Each was compared before it is written down. The list's head says which numbers the Rust tells, and which are ours.
use crate::compare::Comparison;
use crate::generate::*;
use crate::known::{over, written, Expected};
use crate::oracle;
use crate::ours::*;
use crate::records::as_rust;
use ricevm_core::Module;
use std::collections::BTreeMap;
use std::fmt::Write;

/// Refused files are chosen by number and section, accepted ones by what is in them and whether the Rust writes the same bytes:
/// the smallest few of each.
const MOST_BYTES: usize = 96;
const OF_EACH_REFUSAL: usize = 10;
const ACCEPTED: usize = 140;
const WRITES: usize = 40;
const ROOM: usize = 128;

const HEAD: &str = "\
# A sample of the answers of the Rust (habedi/ricevm at 29258f2a7f), made by compare/sample, which compared each of them first.
#
# The Rust's: whether a file is accepted; the number and the section of a refusal, and the detail of those whose error tells it; every number of every record;
# the bytes used and the words needed; the bytes written, where the head of its part says so.
# Ours, since the Rust does not tell them: the places of refusals 2 and 4 to 9, and the section and place of 21; refusal 20, which it does not have; the starts
# of spans; the bytes where a known difference applies (docs/DIFFERENCES.md); that words and bytes past the end, and all of them with a refusal, stay as lent.
";

/// Written as the Rust does, written otherwise by the known differences, or refused by 21.
#[derive(Clone, Copy, PartialEq, Eq, PartialOrd, Ord)]
enum Writes {
    Alike,
    Otherwise,
    Refused,
}

pub fn list() -> String {
    let mut comparison = Comparison::new(&TRUE);
    let mut refused: BTreeMap<(i64, i64), Vec<Vec<u8>>> = BTreeMap::new();
    let mut accepted: BTreeMap<(Writes, u32), Vec<Vec<u8>>> = BTreeMap::new();
    let mut tables: BTreeMap<Writes, Vec<Tables>> = BTreeMap::new();
    candidates(|rng, file| {
        if file.len() > MOST_BYTES {
            return;
        }
        comparison.file(file);
        let module = match oracle::load(file) {
            Ok(module) => module,
            Err(told) => return keep(refused.entry((told.number, told.section)).or_default(), file, OF_EACH_REFUSAL),
        };
        let t = loaded(file).expect("accepted by both");
        keep(accepted.entry((writes(&t), contents(file, &t, &module))).or_default(), file, 1);
        let t = changed(rng, &t);
        if as_rust(&t).is_ok() && matches!(written(&TRUE, &t), Ok(_) | Err([21, ..])) {
            comparison.tables(&t);
            let known = tables.entry(writes(&t)).or_default();
            known.push(t);
            known.truncate(WRITES);
        }
    });
    assert!(comparison.tally.differences.is_empty(), "the two sides differ: run the comparison first");
    let mut out = String::from(HEAD);
    for kind in [Writes::Alike, Writes::Otherwise] {
        out.push_str(match kind {
            Writes::Alike => "\n# ---- accepted, and written byte for byte as the Rust does\n\n",
            _ => "\n# ---- accepted, and written otherwise by a known difference: the bytes are ours\n\n",
        });
        let mut files: Vec<_> = accepted.iter().filter(|(key, _)| key.0 == kind).flat_map(|(_, files)| files).collect();
        files.sort_by_key(|file| file.len());
        for (k, file) in files.into_iter().take(ACCEPTED).enumerate() {
            load_case(&mut out, file, 0);
            write_loaded(&mut out, &loaded(file).unwrap());
            // Every tenth once more, with a word too few.
            if k % 10 == 1 {
                load_case(&mut out, file, 1);
            }
        }
    }
    for ((number, section), files) in &refused {
        let _ = writeln!(out, "\n# ---- refused by {number} in section {section}\n");
        files.iter().for_each(|file| load_case(&mut out, file, 0));
    }
    for (kind, known) in &tables {
        out.push_str(match kind {
            Writes::Alike => "\n# ---- changed tables, written byte for byte as the Rust does\n\n",
            Writes::Otherwise => "\n# ---- changed tables, written otherwise by a known difference: the bytes are ours\n\n",
            Writes::Refused => "\n# ---- changed tables, refused by 21\n\n",
        });
        known.iter().for_each(|t| write_case(&mut out, t));
    }
    out
}

/// Keeps the smallest few, each once.
fn keep(kept: &mut Vec<Vec<u8>>, file: &[u8], most: usize) {
    let at = kept.partition_point(|known| (known.len(), &known[..]) < (file.len(), file));
    if at < most && kept.get(at).is_none_or(|known| known != file) {
        kept.insert(at, file.to_vec());
        kept.truncate(most);
    }
}

fn writes(t: &Tables) -> Writes {
    match over(&TRUE, t) {
        Ok(Expected { bytes: Ok(_), applied: [false, false, false, false, false] }) => Writes::Alike,
        Ok(Expected { bytes: Ok(_), .. }) => Writes::Otherwise,
        _ => Writes::Refused,
    }
}

/// K14 and K15, random modules of few records, and damaged copies of them.
fn candidates(mut each: impl FnMut(&mut Rng, &[u8])) {
    let mut rng = Rng(7);
    for known in ["C0 0C 80 30 00 00 00 00 00 00 7F 7F 00 00", "C0 0C 80 30 00 00 01 00 00 00 00 00 0F 1B 00 6D 00"] {
        each(&mut rng, &unhex(known));
    }
    let mut other = Vec::new();
    for k in 0..20_000 {
        let most = Most { code: 2, types: 2, items: 2, exports: 1, imports: 1, handlers: 2, text: 3 };
        let wild = rng.pick(&[0, 8, 16]);
        let file = module(&mut rng, most, wild);
        each(&mut rng, &file);
        if k % 10 == 0 {
            let mut more = Vec::new();
            damaged(&mut rng, &file, &other, |file| more.push(file.to_vec()));
            more.iter().for_each(|file| each(&mut rng, file));
        }
        other = file;
    }
}

/// Which sections, kinds and oddities an accepted file has, a bit for each.
fn contents(file: &[u8], t: &Tables, module: &Module) -> u32 {
    let mut key = 0;
    let mut has = |holds: bool| key = key << 1 | holds as u32;
    for kind in 1..=8 {
        let first = 9 * t.numbers[CODE] as usize + 5 * t.numbers[TYPES] as usize;
        has(t.words[first..].chunks(5).take(module.data.len()).any(|item| item[0] == kind));
    }
    for count in [module.code.len(), module.types.len(), module.exports.len(), module.imports.len()] {
        has(count > 0);
    }
    has(!module.handlers.is_empty());
    has(!module.header.signature.is_empty());
    has(written(&TRUE, t).is_ok_and(|bytes| bytes != file));
    key
}

/// A load with two words more than needed, or with so many too few.
fn load_case(out: &mut String, file: &[u8], too_few: usize) {
    let t = loaded(file);
    let needed = t.as_ref().map_or(0, |t| t.words.len());
    if needed < too_few {
        return;
    }
    let lent = if too_few == 0 { needed + 2 } else { needed - too_few };
    let answer = load(file, &mut vec![0; lent], &mut [0; 16]);
    if too_few == 0 {
        line(out, format!("file {}", hex(file)));
    }
    let mut case = format!("load {lent} | {}", listed(&answer));
    if answer[0] == 0 {
        let t = t.unwrap();
        case += &format!(" | {} | {}", listed(&t.numbers), listed(&t.words));
    }
    line(out, case);
}

/// What was loaded, written with room for two bytes more.
fn write_loaded(out: &mut String, t: &Tables) {
    let case = match written(&TRUE, t) {
        Ok(bytes) => format!("write {} | | 0 {} 0 0 | {}", bytes.len() + 2, bytes.len(), hex(&bytes)),
        Err(refused) => format!("write {ROOM} | | {}", listed(&refused)),
    };
    line(out, case);
}

fn write_case(out: &mut String, t: &Tables) {
    line(out, format!("file {}", hex(&t.file)));
    line(out, format!("module {}", listed(&t.numbers)));
    line(out, format!("words {}", listed(&t.words)));
    write_loaded(out, t);
}

fn line(out: &mut String, text: String) {
    out.push_str(text.trim_end());
    out.push('\n');
}

fn listed<N: ToString>(numbers: &[N]) -> String {
    numbers.iter().map(N::to_string).collect::<Vec<_>>().join(" ")
}

fn hex(bytes: &[u8]) -> String {
    bytes.iter().map(|b| format!("{b:02X}")).collect::<Vec<_>>().join(" ")
}
