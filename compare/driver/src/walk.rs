//! Document 01's walk, plainly, over the Rust's own records: the Rust has no walk to compare with.
use ricevm_core::Module;

/// 0 0 0 idle, 1 pc frame, 2 reason 0 stopped, 3 0 0 broken, as dis.h numbers it.
pub type State = [i32; 3];

pub const IDLE: State = [0, 0, 0];
const BROKEN: State = [3, 0, 0];
const NO_ENTRY: State = [2, 1, 0];
const NO_CODE: State = [2, 2, 0];
const END_OF_CODE: State = [2, 3, 0];
const UNCAUGHT: State = [2, 4, 0];
const NO_CATCH_ALL: State = [2, 5, 0];
const NO_FRAME: i32 = -1;
const DEFAULT_FRAME: i32 = -2;

#[derive(Debug, Clone)]
pub enum Event {
    Entry,
    Export(u32),
    Next,
    Raise(Vec<u8>),
}

/// None: refusal 25, and the state stays.
pub fn step(m: &Module, state: State, event: &Event) -> Option<State> {
    match event {
        Event::Entry if m.header.entry_pc == -1 => Some(NO_ENTRY),
        Event::Entry => Some(enter(m, m.header.entry_pc, m.header.entry_type)),
        Event::Export(k) => {
            let export = m.exports.get(*k as usize)?;
            if export.pc < 0 {
                return Some(NO_CODE);
            }
            Some(enter(m, export.pc, export.frame_type))
        }
        Event::Next | Event::Raise(_) => Some(go_on(m, state, event)),
    }
}

fn enter(m: &Module, pc: i32, frame: i32) -> State {
    match frame {
        ..=-1 => at(m, pc, NO_FRAME),
        _ if m.types.is_empty() => at(m, pc, DEFAULT_FRAME),
        _ => at(m, pc, frame),
    }
}

/// At a pc with a frame, where the module has both.
fn at(m: &Module, pc: i32, frame: i32) -> State {
    let has_pc = (0..m.code.len() as i32).contains(&pc);
    let has_frame = match frame {
        NO_FRAME => true,
        DEFAULT_FRAME => m.types.is_empty(),
        _ => (0..m.types.len() as i32).contains(&frame),
    };
    if has_pc && has_frame {
        [1, pc, frame]
    } else {
        BROKEN
    }
}

fn go_on(m: &Module, state: State, event: &Event) -> State {
    let (pc, frame) = match state {
        [0, ..] => return IDLE,
        [1, pc, frame] if at(m, pc, frame) != BROKEN => (pc, frame),
        [2, reason @ 1..=5, _] => return [2, reason, 0],
        _ => return BROKEN,
    };
    match event {
        Event::Raise(name) => raise(m, pc, name),
        _ if pc as usize + 1 == m.code.len() => END_OF_CODE,
        _ => [1, pc + 1, frame],
    }
}

fn raise(m: &Module, pc: i32, name: &[u8]) -> State {
    let Some(handler) = m.handlers.iter().find(|h| h.begin_pc <= pc && pc < h.end_pc) else {
        return UNCAUGHT;
    };
    let last = handler.cases.len() - 1;
    let takes = |case: &ricevm_core::ExceptionCase| case.name.as_ref().is_none_or(|n| n.as_bytes() == name);
    let k = handler.cases.iter().position(takes).expect("the last case is nameless");
    let target = handler.cases[k].pc;
    if k == last && target == -1 {
        return NO_CATCH_ALL;
    }
    match handler.type_descriptor {
        None => at(m, target, NO_FRAME),
        Some(t) if (t as i32) < 0 => BROKEN,
        Some(t) => at(m, target, t as i32),
    }
}
