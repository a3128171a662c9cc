//! Files to compare on: every short tail, random modules, and damaged copies of good ones.
//! All follow from a seed, so that a difference can be found again.

use crate::ours::*;
use crate::records::as_rust;
use crate::walk::{Event, State};

/// splitmix64.
pub struct Rng(pub u64);

impl Rng {
    pub fn next(&mut self) -> u64 {
        self.0 = self.0.wrapping_add(0x9E37_79B9_7F4A_7C15);
        let mut z = self.0;
        z = (z ^ (z >> 30)).wrapping_mul(0xBF58_476D_1CE4_E5B9);
        z = (z ^ (z >> 27)).wrapping_mul(0x94D0_49BB_1331_11EB);
        z ^ (z >> 31)
    }

    /// 0..n
    pub fn below(&mut self, n: usize) -> usize {
        (self.next() % n as u64) as usize
    }

    pub fn chance(&mut self, percent: usize) -> bool {
        self.below(100) < percent
    }

    pub fn pick<T: Copy>(&mut self, choices: &[T]) -> T {
        choices[self.below(choices.len())]
    }

    pub fn byte(&mut self) -> u8 {
        self.next() as u8
    }
}

/// Both sides of each form's ends, and of 30 and 32 bits.
pub const EDGES: [i32; 24] = [
    0,
    1,
    62,
    63,
    64,
    65,
    -1,
    -2,
    -63,
    -64,
    -65,
    -66,
    8190,
    8191,
    8192,
    -8191,
    -8192,
    -8193,
    536_870_911,
    -536_870_912,
    536_870_912,
    -536_870_913,
    i32::MAX,
    i32::MIN,
];

/// An operand of any form that holds the value (30 bits).
pub fn operand(out: &mut Vec<u8>, value: i32, longer: usize) {
    let shortest = match value {
        -64..=63 => 0,
        -8192..=8191 => 1,
        _ => 2,
    };
    match (shortest + longer).min(2) {
        0 => out.push((value & 0x7F) as u8),
        1 => out.extend(((value & 0x3FFF) as u16 | 0x8000).to_be_bytes()),
        _ => out.extend(((value & 0x3FFF_FFFF) as u32 | 0xC000_0000).to_be_bytes()),
    }
}

/// A file being made. `wild` is the chance in a hundred that a number or a byte is anything at all instead of what is asked for there.
pub struct Maker {
    pub rng: Rng,
    pub out: Vec<u8>,
    pub wild: usize,
}

/// How many records of each section, at most.
#[derive(Clone, Copy)]
pub struct Most {
    pub code: usize,
    pub types: usize,
    pub items: usize,
    pub exports: usize,
    pub imports: usize,
    pub handlers: usize,
    pub text: usize,
}

pub const SMALL: Most = Most { code: 4, types: 3, items: 4, exports: 3, imports: 3, handlers: 3, text: 6 };

impl Maker {
    pub fn new(seed: u64, wild: usize) -> Self {
        Maker { rng: Rng(seed), out: Vec::new(), wild }
    }

    /// A number within 30 bits: small, an edge, or any.
    pub fn number(&mut self) -> i32 {
        match self.rng.below(4) {
            0 | 1 => self.rng.below(130) as i32 - 65,
            2 => self.rng.pick(&EDGES[..20]),
            _ => (self.rng.next() as i32) >> (2 + self.rng.below(20)),
        }
    }

    /// In -1..n or just outside it.
    fn near(&mut self, n: usize) -> i32 {
        if self.rng.chance(self.wild) {
            return self.rng.pick(&[-2, -1, n as i32 - 1, n as i32, n as i32 + 1, -70, 9000]);
        }
        match n {
            0 => -1,
            _ => self.rng.below(n) as i32,
        }
    }

    fn op(&mut self, value: i32) {
        let value = if self.rng.chance(self.wild / 4) { self.number() } else { value };
        let longer = if self.rng.chance(20) { 1 + self.rng.below(2) } else { 0 };
        operand(&mut self.out, value, longer);
    }

    fn byte(&mut self, byte: u8) {
        let byte = if self.rng.chance(self.wild / 4) { self.rng.byte() } else { byte };
        self.out.push(byte);
    }

    fn word(&mut self) {
        let word = match self.rng.below(3) {
            0 => self.rng.pick(&EDGES),
            _ => self.rng.next() as i32,
        };
        self.out.extend(word.to_be_bytes());
    }

    /// No zero byte: letters, whole and broken UTF-8.
    fn text(&mut self, most: usize) -> Vec<u8> {
        let mut text = Vec::new();
        for _ in 0..self.rng.below(most + 1) {
            match self.rng.below(12) {
                0 => text.extend("é".bytes()),
                1 => text.extend("€".bytes()),
                2 if self.wild > 0 => text.push(self.rng.pick(&[0x80, 0xC3, 0xE2, 0xED, 0xF0, 0xFF])),
                _ => text.push(b'a' + self.rng.below(26) as u8),
            }
        }
        text
    }

    fn name(&mut self, most: usize) {
        let text = self.text(most);
        self.out.extend(text);
        self.byte(0);
    }

    pub fn module(&mut self, most: Most) {
        let code = self.rng.below(most.code + 1);
        let types = self.rng.below(most.types + 1);
        let exports = self.rng.below(most.exports + 1);
        let flags = self.flags();
        self.header(flags, code, types, exports, most.text);
        for _ in 0..code {
            self.instruction();
        }
        for _ in 0..types {
            self.descriptor(most.text);
        }
        for _ in 0..self.rng.below(most.items + 1) {
            self.item(most.text);
        }
        self.byte(0);
        self.name(most.text);
        for _ in 0..exports {
            let (pc, frame) = (self.near(code), self.near(types));
            self.op(pc);
            self.op(frame);
            self.function(most.text);
        }
        if flags & 64 != 0 {
            self.imports(most);
        }
        if flags & 32 != 0 {
            self.handlers(most, code, types);
        }
    }

    fn flags(&mut self) -> i32 {
        if self.rng.chance(self.wild) {
            return self.number();
        }
        let known = [0, 1, 2, 4, 16, -4, -8, 128, 8192];
        self.rng.pick(&known) | self.rng.pick(&[0, 32, 64, 96, 96])
    }

    fn header(&mut self, flags: i32, code: usize, types: usize, exports: usize, most_text: usize) {
        if self.rng.chance(20) {
            operand(&mut self.out, ricevm_core::SMAGIC, 0);
            let len = self.rng.below(most_text + 1);
            self.op(len as i32);
            for _ in 0..len {
                self.out.push(self.rng.byte());
            }
        } else {
            operand(&mut self.out, ricevm_core::XMAGIC, 0);
        }
        operand(&mut self.out, flags, 0);
        let (stack, data) = (self.number(), self.number());
        let (entry_pc, entry_type) = (self.near(code), self.near(types));
        for value in [stack, code as i32, data, types as i32, exports as i32, entry_pc, entry_type] {
            self.op(value);
        }
    }

    pub fn instruction(&mut self) {
        let (middle, source, destination) = (self.rng.below(4), self.rng.below(6), self.rng.below(6));
        let opcode = self.rng.below(176) as u8;
        self.byte(opcode);
        self.byte((middle << 6 | source << 3 | destination) as u8);
        let operands = |mode| match mode {
            3 => 0,
            4 | 5 => 2,
            _ => 1,
        };
        for _ in 0..middle.min(1) + operands(source) + operands(destination) {
            let value = self.number();
            self.op(value);
        }
    }

    pub fn descriptor(&mut self, most: usize) {
        let (id, size, len) = (self.number(), self.number(), self.rng.below(most + 1));
        for value in [id, size, len as i32] {
            self.op(value);
        }
        for _ in 0..len {
            self.out.push(self.rng.byte());
        }
    }

    pub fn item(&mut self, most: usize) {
        let kind = 1 + self.rng.below(8) as u8;
        let mut count = match self.rng.below(6) {
            0 => self.rng.pick(&[0, 14, 15, 16, 17, 63, 64]),
            _ => self.rng.below(most + 1),
        };
        let text = self.text(count);
        if kind == 3 {
            count = text.len();
        }
        if (1..=15).contains(&count) && !self.rng.chance(10) {
            self.byte(kind << 4 | count as u8);
        } else {
            self.byte(kind << 4);
            self.op(count as i32);
        }
        let offset = self.number();
        self.op(offset & 0x1FFF_FFFF);
        match kind {
            1 => (0..count).for_each(|_| self.out.push(self.rng.byte())),
            3 => self.out.extend(text),
            2 => (0..count).for_each(|_| self.word()),
            4 | 8 => (0..2 * count).for_each(|_| self.word()),
            5 => (0..2).for_each(|_| self.word()),
            6 => self.word(),
            _ => {}
        }
    }

    /// A signature and a name: a function, and the rest of an export.
    pub fn function(&mut self, most: usize) {
        self.word();
        self.name(most);
    }

    fn imports(&mut self, most: Most) {
        let modules = self.rng.below(most.imports + 1);
        self.op(modules as i32);
        for _ in 0..modules {
            let functions = self.rng.below(most.imports + 1);
            self.op(functions as i32);
            for _ in 0..functions {
                self.function(most.text);
            }
        }
        self.byte(0);
    }

    fn handlers(&mut self, most: Most, code: usize, types: usize) {
        // A handler needs an instruction to cover.
        let handlers = if code == 0 { 0 } else { self.rng.below(most.handlers + 1) };
        self.op(handlers as i32);
        for _ in 0..handlers {
            let offset = self.number();
            let begin = self.near(code);
            let end = begin + 1 + self.rng.below((code as i32 - begin).max(1) as usize) as i32;
            let descriptor = if self.rng.chance(40) { -1 } else { self.near(types) };
            let cases = self.rng.below(most.handlers + 1) as i32;
            let upper = if self.rng.chance(30) { self.rng.pick(&[1, 2, -1, 8191, -8192]) } else { 0 };
            for value in [offset, begin, end, descriptor, upper << 16 | cases] {
                self.op(value);
            }
            for _ in 0..cases {
                self.name(most.text);
                let pc = self.near(code);
                self.op(pc);
            }
            let last = if self.rng.chance(30) { -1 } else { self.near(code) };
            self.op(last);
        }
        self.byte(0);
    }
}

/// A random module; `wild` 0 makes ones that are accepted and have whole UTF-8.
pub fn module(rng: &mut Rng, most: Most, wild: usize) -> Vec<u8> {
    let mut maker = Maker::new(rng.next(), wild);
    maker.module(most);
    maker.out
}

/// Good beginnings, each up to a place where a piece of another kind begins; `hex` of what stands before it.
pub const FRONTS: [(&str, &str); 17] = [
    ("nothing", ""),
    ("magic", "C0 0C 80 30"),
    ("signature", "C0 0E 17 22"),
    ("sizes", "C0 0C 80 30 00 00"),
    ("entry", "C0 0C 80 30 00 00 00 00 00 00"),
    ("opcode", "C0 0C 80 30 00 00 01 00 00 00 7F 7F"),
    ("addressing", "C0 0C 80 30 00 00 01 00 00 00 00 00 0F"),
    ("operands", "C0 0C 80 30 00 00 01 00 00 00 00 00 2D 4A"),
    ("type", "C0 0C 80 30 00 00 00 00 01 00 7F 00 05"),
    ("item", "C0 0C 80 30 00 00 00 00 00 00 7F 7F"),
    ("long item", "C0 0C 80 30 00 00 00 00 00 00 7F 7F 20"),
    ("name", "C0 0C 80 30 00 00 00 00 00 00 7F 7F 00"),
    ("export", "C0 0C 80 30 00 00 01 00 01 01 00 00 0F 1B 00 08 00 00 00"),
    ("imports", "C0 0C 80 30 80 40 00 00 00 00 00 7F 7F 00 00"),
    ("function", "C0 0C 80 30 80 40 00 00 00 00 00 7F 7F 00 00 01 01 01 02 03"),
    ("handler", "C0 0C 80 30 20 00 02 00 01 00 00 00 0F 1B 0F 1B 00 08 00 00 00 01 00"),
    ("case", "C0 0C 80 30 20 00 02 00 01 00 00 00 0F 1B 0F 1B 00 08 00 00 00 01 00 00 02 00 01"),
];

pub fn unhex(text: &str) -> Vec<u8> {
    text.split_whitespace().map(|byte| u8::from_str_radix(byte, 16).expect("two hex digits")).collect()
}

/// Bytes that mean something: form ends, kinds, modes, small counts.
const TELLING: [u8; 16] =
    [0x00, 0x01, 0x02, 0x1B, 0x21, 0x3F, 0x40, 0x4A, 0x50, 0x71, 0x7F, 0x80, 0x9F, 0xBF, 0xC0, 0xFF];

/// Each front with every tail of up to two bytes, and every tail of three and four telling ones; half of them closed with zeros.
pub fn short_tails(mut each: impl FnMut(&[u8])) {
    for (_, front) in FRONTS {
        let mut file = unhex(front);
        let len = file.len();
        each(&file);
        for a in 0..=255 {
            file.push(a);
            each(&file);
            for b in 0..=255 {
                file.push(b);
                each(&file);
                file.truncate(len + 1);
            }
            file.truncate(len);
        }
        for width in [3, 4] {
            for choice in 0..1usize << (4 * width) {
                file.extend((0..width).map(|k| TELLING[choice >> (4 * k) & 15]));
                if choice % 2 == 0 {
                    file.extend([0; 4]);
                }
                each(&file);
                file.truncate(len);
            }
        }
    }
}

/// A good file cut at every place, with a byte flipped, put in or left out at every place, and with something behind it.
pub fn damaged(rng: &mut Rng, good: &[u8], other: &[u8], mut each: impl FnMut(&[u8])) {
    for end in 0..good.len() {
        each(&good[..end]);
    }
    let mut file = Vec::with_capacity(good.len() + other.len() + 8);
    let mut made = |parts: [&[u8]; 3]| {
        file.clear();
        parts.iter().for_each(|part| file.extend_from_slice(part));
        each(&file);
    };
    for at in 0..good.len() {
        let (before, after) = (&good[..at], &good[at + 1..]);
        made([before, &[good[at] ^ 1 << rng.below(8)], after]);
        made([before, &[rng.byte()], after]);
        made([before, &[rng.pick(&TELLING)], &good[at..]]);
        made([before, &[], after]);
    }
    for _ in 0..4 {
        let (at, from) = (rng.below(good.len() + 1), rng.below(other.len() + 1));
        made([&good[..at], &other[from..], &[]]);
    }
    made([good, &other[..rng.below(other.len() + 1)], &[]]);
    made([good, &[rng.byte()], &[]]);
}

/// Tables with a few words or numbers changed: to an edge, to a neighbour, to another word of the table; or a span copied over
/// another. Half of them are taken only if they stay well-formed, where a few tries give such ones.
pub fn changed(rng: &mut Rng, t: &Tables) -> Tables<'static> {
    let tries = rng.pick(&[1, 12]);
    let mut new = changed_anyhow(rng, t);
    for _ in 1..tries {
        if as_rust(&new).is_ok() {
            break;
        }
        new = changed_anyhow(rng, t);
    }
    new
}

fn changed_anyhow(rng: &mut Rng, t: &Tables) -> Tables<'static> {
    let mut new = Tables { numbers: t.numbers, file: t.file.to_vec().into(), words: t.words.clone() };
    for _ in 0..1 + rng.below(3) {
        let words: &mut [i32] = if new.words.is_empty() || rng.chance(20) { &mut new.numbers } else { &mut new.words };
        let (at, from) = (rng.below(words.len()), rng.below(words.len()));
        match rng.below(4) {
            0 => words[at] = rng.pick(&EDGES),
            1 => words[at] = words[at].wrapping_add(rng.pick(&[-1, 1])),
            2 => words[at] = words[from],
            _ => words.copy_within(from..(from + 2).min(words.len()), at.min(words.len().saturating_sub(2))),
        }
    }
    // Words past those needed are not looked at.
    new.words.extend((0..rng.below(3)).map(|_| 0x7777));
    new
}

/// Events of a walk, among which names that the file has. Only whole UTF-8 is raised: the walk's records went through the Rust's lossy conversion.
pub fn events(rng: &mut Rng, t: &Tables) -> Vec<Event> {
    let mut events = Vec::new();
    for _ in 0..rng.below(8) {
        events.push(match rng.below(6) {
            0 => Event::Entry,
            1 => Event::Export(rng.below(4) as u32),
            2 | 3 => Event::Next,
            _ => {
                let names: Vec<&[u8]> = t.file.split(|b| *b == 0).filter(|n| std::str::from_utf8(n).is_ok()).collect();
                let name = if names.is_empty() { &[][..] } else { rng.pick(&names) };
                Event::Raise(name[rng.below(name.len() + 1).min(rng.below(2) * name.len())..].to_vec())
            }
        });
    }
    events
}

/// Mostly a state that the module may have, else any three numbers.
pub fn state(rng: &mut Rng) -> State {
    match rng.below(4) {
        0 => [0, 0, 0],
        1 | 2 => [1, rng.below(5) as i32, rng.below(5) as i32 - 2],
        _ => [rng.below(6) as i32 - 1, rng.pick(&EDGES), rng.pick(&EDGES)],
    }
}
