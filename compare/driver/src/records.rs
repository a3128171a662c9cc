//! Between the two sides' records: our tables as the Rust's `Module`, and a `Module` as bytes that can be compared.
use crate::ours::*;
use ricevm_core::*;

/// No record past this word.
const WORD_LIMIT: usize = 75_497_472;

/// The place of refusal 22.
pub type NotWellFormed = usize;

/// The table words, read from the front. `start` is the record being read, the place of refusal 22 if it is bad.
struct Rows<'a> {
    file: &'a [u8],
    words: &'a [i32],
    start: usize,
    next: usize,
}

impl<'a> Rows<'a> {
    fn record<const N: usize>(&mut self) -> Result<[i32; N], NotWellFormed> {
        self.start = self.next;
        self.next += N;
        if self.next > WORD_LIMIT {
            return Err(self.start);
        }
        let record = self.words.get(self.start..self.next).ok_or(self.start)?;
        Ok(record.try_into().unwrap())
    }

    fn must(&self, holds: bool) -> Result<(), NotWellFormed> {
        if holds {
            Ok(())
        } else {
            Err(self.start)
        }
    }

    fn span(&self, start: i32, len: i32) -> Result<&'a [u8], NotWellFormed> {
        span(self.file, start, len).ok_or(self.start)
    }

    fn name(&self, start: i32, len: i32) -> Result<String, NotWellFormed> {
        name(self.file, start, len).ok_or(self.start)
    }

    fn instruction(&mut self) -> Result<Instruction, NotWellFormed> {
        let [opcode, s, s1, s2, m, m1, d, d1, d2] = self.record()?;
        let bad = self.start;
        let opcode = u8::try_from(opcode).map_err(|_| bad)?;
        let opcode = Opcode::try_from(opcode).map_err(|_| bad)?;
        let source = operand(s, s1, s2).ok_or(bad)?;
        let middle = middle(m, m1).ok_or(bad)?;
        let destination = operand(d, d1, d2).ok_or(bad)?;
        Ok(Instruction { opcode, source, middle, destination })
    }

    fn descriptor(&mut self) -> Result<TypeDescriptor, NotWellFormed> {
        let [id, size, start, len, pointers] = self.record()?;
        let pointer_map = PointerMap { bytes: self.span(start, len)?.to_vec() };
        let ones: u32 = pointer_map.bytes.iter().map(|b| b.count_ones()).sum();
        self.must(ones as i32 == pointers)?;
        Ok(TypeDescriptor { id: id as u32, size, pointer_map, pointer_count: pointers as u32 })
    }

    fn item(&mut self) -> Result<DataItem, NotWellFormed> {
        let [kind, offset, count, start, len] = self.record()?;
        self.must(offset >= 0 && count >= 0)?;
        let value = self.span(start, len)?;
        let unit = match kind {
            1 | 3 => 1,
            2 => 4,
            4 | 8 => 8,
            5 => 8,
            6 => 4,
            7 => 0,
            _ => return Err(self.start),
        };
        self.must(len as i64 == count as i64 * unit)?;
        self.must(!(5..=7).contains(&kind) || count == 1)?;
        self.must(kind != 7 || (offset, start) == (0, 0))?;
        let word = |b: &[u8]| i32::from_be_bytes(b.try_into().unwrap());
        let big = |b: &[u8]| u64::from_be_bytes(b.try_into().unwrap());
        Ok(match kind {
            1 => DataItem::Bytes { offset, values: value.to_vec() },
            2 => DataItem::Words { offset, values: value.chunks(4).map(word).collect() },
            3 => DataItem::String { offset, value: String::from_utf8_lossy(value).into_owned() },
            4 => DataItem::Reals { offset, values: value.chunks(8).map(|b| f64::from_bits(big(b))).collect() },
            5 => DataItem::Array { offset, element_type: word(&value[..4]), length: word(&value[4..]) },
            6 => DataItem::SetArray { offset, index: word(value) },
            7 => DataItem::RestoreBase,
            _ => DataItem::Bigs { offset, values: value.chunks(8).map(|b| big(b) as i64).collect() },
        })
    }

    fn export(&mut self) -> Result<ExportEntry, NotWellFormed> {
        let [pc, frame_type, signature, start, len] = self.record()?;
        let name = self.name(start, len)?;
        Ok(ExportEntry { pc, frame_type, signature, name })
    }

    fn import(&mut self) -> Result<ImportModule, NotWellFormed> {
        let [count] = self.record()?;
        self.must(count >= 0)?;
        let mut functions = Vec::new();
        for _ in 0..count {
            let [signature, start, len] = self.record()?;
            let name = self.name(start, len)?;
            functions.push(ImportEntry { signature, name });
        }
        Ok(ImportModule { functions })
    }

    fn handler(&mut self) -> Result<Handler, NotWellFormed> {
        let [exception_offset, begin_pc, end_pc, descriptor, count] = self.record()?;
        self.must((1..=65_536).contains(&count))?;
        let mut cases = Vec::new();
        for left in (0..count).rev() {
            let [start, len, pc] = self.record()?;
            let name = self.name(start, len)?;
            self.must(left > 0 || (start, len) == (0, 0))?;
            let name = Some(name).filter(|n| !n.is_empty());
            cases.push(ExceptionCase { name, pc });
        }
        Ok(Handler {
            exception_offset,
            begin_pc,
            end_pc,
            type_descriptor: Some(descriptor as u32).filter(|_| descriptor != -1),
            cases,
        })
    }

    fn many<T>(
        &mut self, count: i32, read: fn(&mut Self) -> Result<T, NotWellFormed>,
    ) -> Result<Vec<T>, NotWellFormed> {
        (0..count).map(|_| read(self)).collect()
    }
}

pub fn span(file: &[u8], start: i32, len: i32) -> Option<&[u8]> {
    let start = usize::try_from(start).ok()?;
    let len = usize::try_from(len).ok()?;
    file.get(start..start + len)
}

fn name(file: &[u8], start: i32, len: i32) -> Option<String> {
    let bytes = span(file, start, len)?;
    (!bytes.contains(&0)).then(|| String::from_utf8_lossy(bytes).into_owned())
}

fn operand(mode: i32, register1: i32, register2: i32) -> Option<Operand> {
    let (mode, registers) = match mode {
        0 => (AddressMode::OffsetIndirectMp, 1),
        1 => (AddressMode::OffsetIndirectFp, 1),
        2 => (AddressMode::Immediate, 1),
        3 => (AddressMode::None, 0),
        4 => (AddressMode::OffsetDoubleIndirectMp, 2),
        5 => (AddressMode::OffsetDoubleIndirectFp, 2),
        _ => return None,
    };
    if (registers < 1 && register1 != 0) || (registers < 2 && register2 != 0) {
        return None;
    }
    Some(Operand { mode, register1, register2 })
}

fn middle(mode: i32, register1: i32) -> Option<MiddleOperand> {
    let mode = match mode {
        0 if register1 == 0 => MiddleMode::None,
        1 => MiddleMode::SmallImmediate,
        2 => MiddleMode::SmallOffsetFp,
        3 => MiddleMode::SmallOffsetMp,
        _ => return None,
    };
    Some(MiddleOperand { mode, register1 })
}

/// Our tables as the Rust's module, and how many words they have; or where they are not well-formed. So every fixed and
/// unused field is looked at too.
pub fn as_rust(t: &Tables) -> Result<(Module, usize), NotWellFormed> {
    let n = &t.numbers;
    let outside = |holds: bool| if holds { Ok(()) } else { Err(0usize) };
    outside(n[MAGIC] == XMAGIC || n[MAGIC] == SMAGIC)?;
    outside(n[MAGIC] == SMAGIC || (n[SIGNATURE], n[SIGNATURE + 1]) == (0, 0))?;
    let counts = [CODE, TYPES, EXPORTS, ITEMS, IMPORTS, HANDLERS];
    outside(counts.iter().all(|&k| n[k] >= 0))?;
    let signature = span(&t.file, n[SIGNATURE], n[SIGNATURE + 1]).ok_or(0usize)?;
    let name = name(&t.file, n[NAME], n[NAME + 1]).ok_or(0usize)?;
    let header = Header {
        magic: n[MAGIC],
        signature: signature.to_vec(),
        runtime_flags: RuntimeFlags(n[FLAGS] as u32),
        stack_extent: n[STACK],
        code_size: n[CODE],
        data_size: n[DATA],
        type_size: n[TYPES],
        export_size: n[EXPORTS],
        entry_pc: n[ENTRY_PC],
        entry_type: n[ENTRY_TYPE],
    };
    let mut rows = Rows { file: &t.file, words: &t.words, start: 0, next: 0 };
    let module = Module {
        header,
        code: rows.many(n[CODE], Rows::instruction)?,
        types: rows.many(n[TYPES], Rows::descriptor)?,
        data: rows.many(n[ITEMS], Rows::item)?,
        name,
        exports: rows.many(n[EXPORTS], Rows::export)?,
        imports: rows.many(n[IMPORTS], Rows::import)?,
        handlers: rows.many(n[HANDLERS], Rows::handler)?,
    };
    Ok((module, rows.next))
}

/// Every number and text of a module in one run of bytes, reals by their bits: two are equal exactly when these are.
pub fn flat(m: &Module) -> Vec<u8> {
    let mut out = Flat(Vec::with_capacity(256));
    let h = &m.header;
    out.number(h.magic);
    out.bytes(&h.signature);
    out.number(h.runtime_flags.0 as i32);
    for n in [h.stack_extent, h.code_size, h.data_size, h.type_size] {
        out.number(n);
    }
    for n in [h.export_size, h.entry_pc, h.entry_type] {
        out.number(n);
    }
    out.count(m.code.len());
    for i in &m.code {
        out.operand(&i.source);
        out.operand(&i.destination);
        for n in [i.opcode as i32, i.middle.mode as i32, i.middle.register1] {
            out.number(n);
        }
    }
    out.count(m.types.len());
    for t in &m.types {
        for n in [t.id as i32, t.size, t.pointer_count as i32] {
            out.number(n);
        }
        out.bytes(&t.pointer_map.bytes);
    }
    out.count(m.data.len());
    for item in &m.data {
        out.item(item);
    }
    out.bytes(m.name.as_bytes());
    out.count(m.exports.len());
    for e in &m.exports {
        for n in [e.pc, e.frame_type, e.signature] {
            out.number(n);
        }
        out.bytes(e.name.as_bytes());
    }
    out.count(m.imports.len());
    for i in &m.imports {
        out.count(i.functions.len());
        for f in &i.functions {
            out.number(f.signature);
            out.bytes(f.name.as_bytes());
        }
    }
    out.count(m.handlers.len());
    for h in &m.handlers {
        for n in [h.exception_offset, h.begin_pc, h.end_pc] {
            out.number(n);
        }
        out.number(h.type_descriptor.is_some() as i32);
        out.number(h.type_descriptor.unwrap_or(0) as i32);
        out.count(h.cases.len());
        for c in &h.cases {
            out.number(c.name.is_some() as i32);
            out.bytes(c.name.as_deref().unwrap_or("").as_bytes());
            out.number(c.pc);
        }
    }
    out.0
}

struct Flat(Vec<u8>);

impl Flat {
    fn number(&mut self, n: i32) {
        self.0.extend_from_slice(&n.to_be_bytes());
    }

    fn count(&mut self, n: usize) {
        self.0.extend_from_slice(&(n as u64).to_be_bytes());
    }

    fn bytes(&mut self, bytes: &[u8]) {
        self.count(bytes.len());
        self.0.extend_from_slice(bytes);
    }

    fn operand(&mut self, o: &Operand) {
        for n in [o.mode as i32, o.register1, o.register2] {
            self.number(n);
        }
    }

    fn values<const N: usize>(&mut self, kind: i32, offset: i32, values: impl Iterator<Item = [u8; N]>) {
        self.number(kind);
        self.number(offset);
        self.bytes(&values.flatten().collect::<Vec<u8>>());
    }

    fn item(&mut self, item: &DataItem) {
        match item {
            DataItem::Bytes { offset, values } => self.values(1, *offset, values.iter().map(|b| [*b])),
            DataItem::Words { offset, values } => self.values(2, *offset, values.iter().map(|w| w.to_be_bytes())),
            DataItem::String { offset, value } => self.values(3, *offset, value.bytes().map(|b| [b])),
            DataItem::Reals { offset, values } => {
                self.values(4, *offset, values.iter().map(|r| r.to_bits().to_be_bytes()))
            }
            DataItem::Array { offset, element_type, length } => {
                self.values(5, *offset, [element_type, length].map(|w| w.to_be_bytes()).into_iter())
            }
            DataItem::SetArray { offset, index } => self.values(6, *offset, [index.to_be_bytes()].into_iter()),
            DataItem::RestoreBase => self.values(7, 0, [[0]; 0].into_iter()),
            DataItem::Bigs { offset, values } => self.values(8, *offset, values.iter().map(|b| b.to_be_bytes())),
        }
    }
}
