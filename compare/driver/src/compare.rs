//! Both sides on one file, or on one set of tables: the first thing in which they differ.
use crate::known::{over, written, DIFFERENCES};
use crate::oracle::{self, Told};
use crate::ours::*;
use crate::records::{as_rust, flat};
use crate::walk::{step, Event, State};
use ricevm_core::Module;
use std::borrow::Cow;
use std::collections::BTreeMap;

/// What differs, in words that don't depend on the input; and its numbers.
pub struct Difference {
    pub kind: &'static str,
    pub numbers: String,
}

fn must(holds: bool, kind: &'static str, numbers: impl FnOnce() -> String) -> Result<(), Difference> {
    if holds {
        return Ok(());
    }
    Err(Difference { kind, numbers: numbers() })
}

/// What was compared, and every kind of difference with its smallest input.
#[derive(Default)]
pub struct Tally {
    pub files: u64,
    pub accepted: u64,
    pub refused: [u64; 21],
    pub tables: u64,
    pub tables_refused: [u64; 26],
    /// Events of walks: the code of the state that they led to and a stop's reason, or 4 and the refusal's number.
    pub events: BTreeMap<(i32, i32), u64>,
    pub same_bytes: u64,
    /// How often each known difference applied, and the smallest file that showed it.
    pub applied: [(u64, Vec<u8>); 5],
    pub differences: BTreeMap<&'static str, (u64, Vec<u8>, String)>,
}

/// Lent memory, marked so that it shows where it was written. One word and one byte more than is lent are marked too.
pub struct Comparison<'a> {
    pub side: &'a Side,
    pub tally: Tally,
    words: Vec<i32>,
    fresh_words: Vec<i32>,
    out: Vec<u8>,
    fresh_out: Vec<u8>,
}

const MARKED: [i32; 18] = [0x5A5A_5A5A; 18];

impl<'a> Comparison<'a> {
    pub fn new(side: &'a Side) -> Self {
        Comparison {
            side,
            tally: Tally::default(),
            words: Vec::new(),
            fresh_words: Vec::new(),
            out: Vec::new(),
            fresh_out: Vec::new(),
        }
    }

    /// Compares one file, and notes what differs.
    pub fn file(&mut self, file: &[u8]) {
        self.tally.files += 1;
        if let Err(difference) = self.loaded(file) {
            self.note(difference, file);
        }
    }

    /// Compares what is written for tables that no load need have left.
    pub fn tables(&mut self, t: &Tables) {
        self.tally.tables += 1;
        if let Err(difference) = self.written(t).map(|_| ()) {
            let mut input: Vec<u8> = t.numbers.iter().flat_map(|n| n.to_be_bytes()).collect();
            input.extend_from_slice(&t.file);
            input.extend(t.words.iter().flat_map(|w| w.to_be_bytes()));
            self.note(difference, &input);
        }
    }

    /// Compares a walk over such tables, from any state, with document 01's.
    pub fn walk(&mut self, t: &Tables, from: State, events: &[Event]) {
        if let Err(difference) = self.walked(t, from, events) {
            self.note(difference, &[]);
        }
    }

    /// Refusal 1, which the Rust doesn't have: of a lent file, and of what would be written.
    pub fn too_large(&mut self) {
        const HALF: usize = FILE_LIMIT / 2;
        let mut numbers = [0; 16];
        (numbers[MAGIC], numbers[ITEMS]) = (ricevm_core::XMAGIC, 2);
        let item = [1, 0, HALF as i32, 0, HALF as i32];
        let fine = Tables { numbers, file: vec![1; HALF].into(), words: [item, [7, 0, 1, 0, 0]].concat() };
        let twice = Tables { words: [item, item].concat(), ..fine.clone() };
        let over = Tables { file: vec![1; FILE_LIMIT + 1].into(), ..fine.clone() };
        let mut compared = || {
            let (answer, _) = self.load(&over.file, 8)?;
            must(answer == [1, 0, 0, 0], "not refusal 1", || format!("load: {answer:?}"))?;
            for t in [&twice, &over] {
                let answer = self.write(t, FILE_LIMIT + 64)?;
                must(answer == [1, 0, 0, 0], "not refusal 1", || format!("write: {answer:?}"))?;
            }
            let mut state = [1, 2, 3];
            let answer = (self.side.walk)(&Event::Entry, &over, &mut state);
            must((answer, state) == ([1, 0, 0, 0], [1, 2, 3]), "not refusal 1", || {
                format!("entry: {answer:?} {state:?}")
            })?;
            self.written(&fine)
        };
        if let Err(difference) = compared() {
            self.note(difference, &[]);
        }
    }

    /// A module, a state or an answer with too few numbers.
    pub fn too_short(&mut self) {
        if !lengths_are_judged() {
            self.note(Difference { kind: "lengths judged otherwise than dis.h says", numbers: String::new() }, &[]);
        }
    }

    fn note(&mut self, difference: Difference, input: &[u8]) {
        let Difference { kind, numbers } = difference;
        let known = self.tally.differences.entry(kind).or_insert_with(|| (0, input.to_vec(), numbers.clone()));
        known.0 += 1;
        if input.len() < known.1.len() {
            (known.1, known.2) = (input.to_vec(), numbers);
        }
    }

    /// Our loader on marked memory: its answer and the module's numbers. Untouched memory is looked at here, so that the words
    /// hold what was loaded, then marks.
    fn load(&mut self, file: &[u8], lent: usize) -> Result<(Answer, Numbers), Difference> {
        let mark = |i: usize| 0x5EED_0000 ^ i as i32;
        for i in self.words.len()..lent + 1 {
            self.words.push(mark(i));
            self.fresh_words.push(mark(i));
        }
        let mut numbers = MARKED;
        let answer = (self.side.load)(file, &mut self.words[..lent], &mut numbers);
        let (kept, numbers_kept) = match answer {
            [0, _, needed, _] => (needed as usize, 16),
            _ => (0, 0),
        };
        must(kept <= lent, "more words are told than were lent", || format!("{answer:?} of {lent}"))?;
        let same = self.words[kept..lent + 1] == self.fresh_words[kept..lent + 1];
        must(same, "words past those needed changed", || format!("{answer:?}"))?;
        let same = numbers[numbers_kept..] == MARKED[numbers_kept..];
        must(same, "a module's numbers changed", || format!("{answer:?}"))?;
        Ok((answer, numbers[..16].try_into().unwrap()))
    }

    fn walked(&mut self, t: &Tables, from: State, events: &[Event]) -> Result<(), Difference> {
        let module = as_rust(t).map(|(module, _)| module);
        let [a, b, c] = from;
        // The fourth number is past those of a state.
        let mut state = [a, b, c, MARKED[0]];
        for event in events {
            let before = state;
            let answer = (self.side.walk)(event, t, &mut state);
            let next = module.as_ref().map(|m| step(m, [before[0], before[1], before[2]], event));
            let expected = match (next, event) {
                (Ok(Some([a, b, c])), _) => ([0; 4], [a, b, c, MARKED[0]]),
                (Ok(None), Event::Export(k)) => ([25, 0, 0, *k as i64], before),
                (Ok(None), _) => unreachable!("only an export can be absent"),
                (Err(place), _) => ([22, 0, *place as i64, 0], before),
            };
            must((answer, state) == expected, "another step of the walk", || {
                format!("{event:?} from {before:?}: {answer:?} {state:?}, not {expected:?}; {module:?}")
            })?;
            let outcome = match (answer, state) {
                ([0, ..], [2, reason, ..]) => (2, reason),
                ([0, ..], [code, ..]) => (code, 0),
                ([number, ..], _) => (4, number as i32),
            };
            *self.tally.events.entry(outcome).or_default() += 1;
        }
        Ok(())
    }

    fn forget_words(&mut self, n: usize) {
        self.words[..n].copy_from_slice(&self.fresh_words[..n]);
    }

    fn loaded(&mut self, file: &[u8]) -> Result<(), Difference> {
        // Enough for any file that is not one of the limits, and those have no records.
        let lent = (file.len() * 9 / 2 + 8).min(1 << 20);
        let rust = oracle::load(file);
        let load = self.load(file, lent);
        let result = load.and_then(|(answer, numbers)| match (answer, rust) {
            ([0, used, needed, 0], Ok(module)) => self.accepted(file, used, needed, numbers, module),
            ([0, ..], Ok(_)) => must(false, "a load's answer has a fourth number", || format!("{answer:?}")),
            ([0, ..], Err(told)) => must(false, "accepted here, refused by the Rust", || format!("{told:?}")),
            (_, Ok(_)) => must(false, "refused here, accepted by the Rust", || format!("{answer:?}")),
            (_, Err(told)) => self.refused(answer, told),
        });
        self.forget_words(lent + 1);
        result
    }

    fn refused(&mut self, answer: Answer, told: Told) -> Result<(), Difference> {
        let [number, section, place, detail] = answer;
        let same = number == told.number
            && section == told.section
            && told.place.is_none_or(|p| p == place)
            && told.detail.is_none_or(|d| d == detail);
        must(same, "another refusal", || format!("here {answer:?}, by the Rust {told:?}"))?;
        self.tally.refused[number as usize] += 1;
        Ok(())
    }

    fn accepted(
        &mut self, file: &[u8], used: i64, needed: i64, numbers: Numbers, module: Module,
    ) -> Result<(), Difference> {
        let needed = needed as usize;
        let t = Tables { numbers, file: Cow::Borrowed(file), words: self.words[..needed].to_vec() };
        let (ours, words) = as_rust(&t).map_err(|place| Difference {
            kind: "loaded tables that are not well-formed",
            numbers: format!("at word {place}"),
        })?;
        must(words == needed, "another number of words", || format!("{needed} told, {words} there"))?;
        must(flat(&ours) == flat(&module), "another record", || format!("here {ours:?}, by the Rust {module:?}"))?;
        self.used(file, used as usize)?;
        self.room(file, &t)?;
        self.tally.accepted += 1;
        let bytes = self.written(&t)?;
        self.read_back(&bytes.unwrap_or_default(), &module)
    }

    /// The Rust doesn't tell how many bytes it used, but it accepts so many, and one less is too few for it.
    fn used(&self, file: &[u8], used: usize) -> Result<(), Difference> {
        let enough = used <= file.len() && oracle::load(&file[..used]).is_ok();
        let less = used.checked_sub(1).and_then(|less| file.get(..less));
        let too_few = less.is_some_and(|less| oracle::load(less).is_err_and(|told| told.number == 2));
        must(enough && too_few, "another number of bytes used", || format!("{used} of {}", file.len()))
    }

    /// Just enough words are enough, and one less is refusal 20 with nothing touched.
    fn room(&mut self, file: &[u8], t: &Tables) -> Result<(), Difference> {
        let needed = t.words.len();
        self.forget_words(needed);
        let (answer, numbers) = self.load(file, needed)?;
        let same = answer[0] == 0 && numbers == t.numbers && self.words[..needed] == t.words;
        must(same, "another load in just enough words", || format!("{answer:?}"))?;
        self.forget_words(needed);
        if needed > 0 {
            let (answer, _) = self.load(file, needed - 1)?;
            let expected = [20, 0, 0, needed as i64];
            must(answer == expected, "not refusal 20", || format!("{answer:?}, not {expected:?}"))?;
            self.tally.refused[20] += 1;
        }
        Ok(())
    }

    /// What is written is read back by the Rust as the same module, but for magic and signature.
    fn read_back(&self, bytes: &[u8], module: &Module) -> Result<(), Difference> {
        let mut plain = module.clone();
        plain.header.magic = ricevm_core::XMAGIC;
        plain.header.signature.clear();
        let back = oracle::load(bytes);
        let same = back.as_ref().is_ok_and(|back| flat(back) == flat(&plain));
        must(same, "written, and not read back by the Rust", || format!("{back:?}"))
    }

    /// Well-formed tables with the right flags are written as the Rust does, or refused where it refuses; others by 22 or 23.
    fn written(&mut self, t: &Tables) -> Result<Option<Vec<u8>>, Difference> {
        let ours = written(self.side, t);
        self.room_to_write(t, &ours)?;
        let refused_by = |expected: Answer| {
            must(ours == Err(expected), "another refusal to write", || format!("{ours:?}, not {expected:?}"))
        };
        let (module, _) = match as_rust(t) {
            Ok(known) => known,
            Err(place) => return refused_by([22, 0, place as i64, 0]).map(|_| None),
        };
        let rust = oracle::write(&module);
        let applied = self.same_as_rust(t, &rust)?;
        let flags = t.numbers[FLAGS];
        let unflagged = |count: usize, flag: i32| t.numbers[count] > 0 && flags & flag == 0;
        match (&ours, &rust) {
            _ if unflagged(IMPORTS, 64) => refused_by([23, 7, 0, flags as i64])?,
            _ if unflagged(HANDLERS, 32) => refused_by([23, 8, 0, flags as i64])?,
            (Ok(_), Ok(_)) => {}
            (Err([21, _, _, value]), Err(wide)) if value == wide => {}
            // A case that the Rust drops can be too wide.
            (Err([21, 8, ..]), Ok(_)) if applied[2] => {}
            _ => must(false, "written or refused otherwise", || format!("{ours:?}, the Rust {rust:?}"))?,
        }
        Ok(ours.ok())
    }

    /// The same in more room, with nothing touched behind it; a byte less is refusal 24; and a refusal touches nothing.
    fn room_to_write(&mut self, t: &Tables, ours: &Result<Vec<u8>, Answer>) -> Result<(), Difference> {
        let (expected, bytes) = match ours {
            Ok(bytes) => ([0, bytes.len() as i64, 0, 0], &bytes[..]),
            Err(refused) => {
                self.tally.tables_refused[refused[0] as usize] += 1;
                (*refused, &[][..])
            }
        };
        let answer = self.write(t, bytes.len() + 16)?;
        let same = answer == expected && self.out.starts_with(bytes);
        self.forget_out(bytes.len());
        must(same, "another write in more room", || format!("{answer:?}, not {expected:?}"))?;
        if let Some(less) = bytes.len().checked_sub(1) {
            let answer = self.write(t, less)?;
            let expected = [24, 0, 0, bytes.len() as i64];
            must(answer == expected, "not refusal 24", || format!("{answer:?}, not {expected:?}"))?;
        }
        Ok(())
    }

    /// Our writer on marked memory. What was written is left in `out`.
    fn write(&mut self, t: &Tables, room: usize) -> Result<Answer, Difference> {
        for i in self.out.len()..room + 1 {
            let mark = (i as u8).wrapping_mul(37) ^ 0xA5;
            self.out.push(mark);
            self.fresh_out.push(mark);
        }
        let answer = (self.side.write)(&t.numbers, &t.file, &t.words, &mut self.out[..room]);
        let kept = if answer[0] == 0 { answer[1] as usize } else { 0 };
        let told = must(kept <= room, "more bytes are told than there was room", || format!("{answer:?} of {room}"));
        let kept = kept.min(room);
        let same = self.out[kept..room + 1] == self.fresh_out[kept..room + 1];
        self.out[kept..room + 1].copy_from_slice(&self.fresh_out[kept..room + 1]);
        told?;
        must(same, "output past what was written changed", || format!("{answer:?}"))?;
        Ok(answer)
    }

    fn forget_out(&mut self, n: usize) {
        self.out[..n].copy_from_slice(&self.fresh_out[..n]);
    }

    /// The Rust's bytes are ours with the known differences put over them.
    fn same_as_rust(&mut self, t: &Tables, rust: &Result<Vec<u8>, i64>) -> Result<[bool; 5], Difference> {
        let expected = over(self.side, t).map_err(|answer| Difference {
            kind: "refused by what the Rust doesn't have",
            numbers: format!("{answer:?}"),
        })?;
        must(expected.bytes == *rust, "other bytes", || {
            format!("ours {:02X?}, the Rust's {rust:02X?}", expected.bytes)
        })?;
        if rust.is_ok() && expected.applied == [false; 5] {
            self.tally.same_bytes += 1;
        }
        for ((count, smallest), applied) in self.tally.applied.iter_mut().zip(expected.applied) {
            if applied && (*count == 0 || t.file.len() < smallest.len()) {
                *smallest = t.file.to_vec();
            }
            *count += applied as u64;
        }
        Ok(expected.applied)
    }
}

pub fn hex(bytes: &[u8]) -> String {
    bytes.iter().map(|b| format!("{b:02X}")).collect::<Vec<_>>().join(" ")
}

impl Tally {
    /// Prints what was compared. Whether there was no difference.
    pub fn report(&self) -> bool {
        println!("files                {:>9}", self.files);
        println!("  accepted           {:>9}", self.accepted);
        for (number, count) in self.refused.iter().enumerate().filter(|(_, count)| **count > 0) {
            println!("  refused by {number:>2}      {count:>9}");
        }
        println!("tables               {:>9}", self.tables);
        for (number, count) in self.tables_refused.iter().enumerate().filter(|(_, count)| **count > 0) {
            println!("  refused by {number:>2}      {count:>9}");
        }
        println!("events of walks      {:>9}", self.events.values().sum::<u64>());
        for ((code, number), count) in &self.events {
            let outcome = ["idle", "at a pc", "stopped", "broken", "refused by"][*code as usize];
            println!("  {outcome:<10} {number:>2}      {count:>9}");
        }
        println!("written alike        {:>9}", self.same_bytes);
        for (what, (count, smallest)) in DIFFERENCES.iter().zip(&self.applied) {
            println!("  but: {what:<52} {count:>9}, as of {}", hex(smallest));
        }
        for (kind, (count, input, numbers)) in &self.differences {
            println!("DIFFERENCE: {kind}: {count} times; the smallest input: {}\n  {numbers}", hex(input));
        }
        println!("{} kinds of difference", self.differences.len());
        self.differences.is_empty()
    }
}
