//! The known differences of `write_dis` (docs/DIFFERENCES.md), put over our writer: what comes out must be the Rust's bytes.
use crate::ours::*;
use crate::records::span;
use std::borrow::Cow;

pub const DIFFERENCES: [&str; 5] = [
    "import count without flag 64",
    "closing zero dropped where no import module follows",
    "several nameless cases",
    "handlers dropped without flag 32",
    "text converted lossily",
];

/// The Rust's bytes, or the operand it refuses, by our writer; and which differences were put over it. Where none was, these are
/// our writer's own bytes.
pub struct Expected {
    pub bytes: Result<Vec<u8>, i64>,
    pub applied: [bool; 5],
}

/// The tables must be well-formed. Err: what our writer answered that the Rust has no counterpart of.
pub fn over(side: &Side, t: &Tables) -> Result<Expected, Answer> {
    let mut t = t.clone();
    let flags = t.numbers[FLAGS];
    let no_imports = t.numbers[IMPORTS] == 0;
    let applied = [
        flags & 64 == 0,
        flags & 64 != 0 && no_imports,
        one_nameless_case(&mut t),
        flags & 32 == 0 && t.numbers[HANDLERS] != 0,
        lossy_text(&mut t),
    ];
    if flags & 32 == 0 {
        t.numbers[HANDLERS] = 0;
    }
    let bytes = match with_imports(side, t, flags, no_imports) {
        Ok(bytes) => Ok(bytes),
        Err([21, _, _, value]) => Err(value),
        Err(other) => return Err(other),
    };
    Ok(Expected { bytes, applied })
}

/// Section 7 as the Rust has it: written whatever the flags say, its closing zero dropped where no module follows.
fn with_imports(side: &Side, mut t: Tables, flags: i32, no_imports: bool) -> Result<Vec<u8>, Answer> {
    if !(-(1 << 29)..1 << 29).contains(&flags) {
        return Err([21, 1, 0, flags as i64]);
    }
    t.numbers[FLAGS] = flags | 64;
    let mut bytes = written(side, &t)?;
    if no_imports {
        let end = bytes.len() - handler_bytes(side, &t, bytes.len())?;
        bytes.remove(end - 1);
    }
    if flags & 64 == 0 {
        let there = operand_bytes(side, flags | 64)?.len();
        bytes.splice(4..4 + there, operand_bytes(side, flags)?);
    }
    Ok(bytes)
}

/// How long section 8 is: without its records it is two zeros.
fn handler_bytes(side: &Side, t: &Tables, whole: usize) -> Result<usize, Answer> {
    if t.numbers[FLAGS] & 32 == 0 {
        return Ok(0);
    }
    let mut without = t.clone();
    without.numbers[HANDLERS] = 0;
    Ok(whole - written(side, &without)?.len() + 2)
}

/// An operand, as the flags of a module of nothing: after the magic's four bytes, and before nine zeros and two a section.
fn operand_bytes(side: &Side, value: i32) -> Result<Vec<u8>, Answer> {
    let mut numbers = [0; 16];
    numbers[MAGIC] = ricevm_core::XMAGIC;
    numbers[FLAGS] = value;
    let nothing = Tables { numbers, file: Cow::Borrowed(&[]), words: Vec::new() };
    let bytes = written(side, &nothing)?;
    let sections = (value & 32 != 0) as usize + (value & 64 != 0) as usize;
    Ok(bytes[4..bytes.len() - 9 - 2 * sections].to_vec())
}

/// Our writer's bytes, in room enough.
pub fn written(side: &Side, t: &Tables) -> Result<Vec<u8>, Answer> {
    let mut room = t.file.len() + 4 * t.words.len() + 64;
    loop {
        let mut out = vec![0; room];
        match (side.write)(&t.numbers, &t.file, &t.words, &mut out) {
            [0, len, _, _] => {
                out.truncate(len as usize);
                return Ok(out);
            }
            [24, _, _, needed] if needed as usize > room => room = needed as usize,
            refused => return Err(refused),
        }
    }
}

/// Where the sections' words start that have no fixed place: data items, exports, import modules, handlers.
struct Places {
    items: usize,
    exports: usize,
    imports: usize,
    handlers: usize,
}

fn places(t: &Tables) -> Places {
    let count = |k: usize| t.numbers[k] as usize;
    let items = 9 * count(CODE) + 5 * count(TYPES);
    let exports = items + 5 * count(ITEMS);
    let imports = exports + 5 * count(EXPORTS);
    let mut handlers = imports;
    for _ in 0..count(IMPORTS) {
        handlers += 1 + 3 * t.words[handlers] as usize;
    }
    Places { items, exports, imports, handlers }
}

/// Of each handler the named cases, then the first nameless one's pc as the last.
fn one_nameless_case(t: &mut Tables) -> bool {
    let mut at = places(t).handlers;
    let mut words = t.words[..at].to_vec();
    let mut changed = false;
    for _ in 0..t.numbers[HANDLERS] {
        let count = t.words[at + 4] as usize;
        let cases = &t.words[at + 5..at + 5 + 3 * count];
        let (named, nameless): (Vec<&[i32]>, Vec<&[i32]>) = cases.chunks(3).partition(|case| case[1] > 0);
        words.extend_from_slice(&t.words[at..at + 4]);
        words.push(named.len() as i32 + 1);
        words.extend(named.into_iter().flatten());
        words.extend([0, 0, nameless[0][2]]);
        changed |= nameless.len() > 1;
        at += 5 + 3 * count;
    }
    t.words = words;
    changed
}

/// Names and strings converted as the Rust's reader does; those that change are put behind the file.
fn lossy_text(t: &mut Tables) -> bool {
    let starts = text_starts(t);
    let mut changed = convert(&mut t.file, &mut t.numbers[NAME..NAME + 2]);
    for (at, counted) in starts {
        if convert(&mut t.file, &mut t.words[at..at + 2]) {
            changed = true;
            if counted {
                t.words[at - 1] = t.words[at + 1];
            }
        }
    }
    changed
}

fn convert(file: &mut Cow<[u8]>, span_words: &mut [i32]) -> bool {
    let bytes = span(file, span_words[0], span_words[1]).expect("well-formed tables");
    let Cow::Owned(text) = String::from_utf8_lossy(bytes) else {
        return false;
    };
    span_words[0] = file.len() as i32;
    span_words[1] = text.len() as i32;
    file.to_mut().extend_from_slice(text.as_bytes());
    true
}

/// The place of each text's span in the words, and whether its length is said once more, by a count before it.
fn text_starts(t: &Tables) -> Vec<(usize, bool)> {
    let p = places(t);
    let mut starts = Vec::new();
    let items = (p.items..p.exports).step_by(5).filter(|&w| t.words[w] == 3);
    starts.extend(items.map(|w| (w + 3, true)));
    starts.extend((p.exports..p.imports).step_by(5).map(|w| (w + 3, false)));
    let mut groups = |from: usize, count: i32, head: usize, counter: usize, name: usize| {
        let mut at = from;
        for _ in 0..count {
            let members = t.words[at + counter] as usize;
            starts.extend((0..members).map(|k| (at + head + 3 * k + name, false)));
            at += head + 3 * members;
        }
    };
    groups(p.imports, t.numbers[IMPORTS], 1, 0, 1);
    groups(p.handlers, t.numbers[HANDLERS], 5, 4, 0);
    starts
}
