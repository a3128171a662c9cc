//! Our side: libabi.a, by the declarations of dis.h.
use crate::walk::Event;
use std::borrow::Cow;

/// Not refused: 0 and three numbers. Refused: number, section, place, detail.
pub type Answer = [i64; 4];

/// The sixteen numbers of a module, by their places.
pub type Numbers = [i32; 16];
pub const MAGIC: usize = 0;
pub const SIGNATURE: usize = 1;
pub const FLAGS: usize = 3;
pub const STACK: usize = 4;
pub const CODE: usize = 5;
pub const DATA: usize = 6;
pub const TYPES: usize = 7;
pub const EXPORTS: usize = 8;
pub const ENTRY_PC: usize = 9;
pub const ENTRY_TYPE: usize = 10;
pub const NAME: usize = 11;
pub const ITEMS: usize = 13;
pub const IMPORTS: usize = 14;
pub const HANDLERS: usize = 15;

/// The largest file, and the largest result.
pub const FILE_LIMIT: usize = 16_777_216;

/// A module with what its spans and records lie in.
#[derive(Clone)]
pub struct Tables<'a> {
    pub numbers: Numbers,
    pub file: Cow<'a, [u8]>,
    pub words: Vec<i32>,
}

/// The functions under comparison, so that wrong ones can stand in for the true ones.
#[derive(Clone, Copy)]
pub struct Side {
    pub load: fn(&[u8], &mut [i32], &mut [i32]) -> Answer,
    pub write: fn(&[i32], &[u8], &[i32], &mut [u8]) -> Answer,
    pub walk: fn(&Event, &Tables, &mut [i32]) -> Answer,
}

pub const TRUE: Side = Side { load, write, walk };

extern "C" {
    fn dis_load(
        file: *const u8, file_len: usize, words: *mut i32, words_len: usize, module: *mut i32, module_len: usize,
        answer: *mut i64, answer_len: usize,
    ) -> i32;
    fn dis_write(
        module: *const i32, module_len: usize, file: *const u8, file_len: usize, words: *const i32, words_len: usize,
        out: *mut u8, out_len: usize, answer: *mut i64, answer_len: usize,
    ) -> i32;
    fn dis_entry(
        module: *const i32, module_len: usize, file: *const u8, file_len: usize, words: *const i32, words_len: usize,
        state: *mut i32, state_len: usize, answer: *mut i64, answer_len: usize,
    ) -> i32;
    fn dis_export(
        module: *const i32, module_len: usize, file: *const u8, file_len: usize, words: *const i32, words_len: usize,
        k: u32, state: *mut i32, state_len: usize, answer: *mut i64, answer_len: usize,
    ) -> i32;
    fn dis_next(
        module: *const i32, module_len: usize, file: *const u8, file_len: usize, words: *const i32, words_len: usize,
        state: *mut i32, state_len: usize, answer: *mut i64, answer_len: usize,
    ) -> i32;
    fn dis_raise(
        module: *const i32, module_len: usize, file: *const u8, file_len: usize, words: *const i32, words_len: usize,
        name: *const u8, name_len: usize, state: *mut i32, state_len: usize, answer: *mut i64, answer_len: usize,
    ) -> i32;
}

pub fn load(file: &[u8], words: &mut [i32], module: &mut [i32]) -> Answer {
    let mut answer = [0; 4];
    // Every pointer comes with the length of its own slice, and those that are written are borrowed alone.
    let done = unsafe {
        dis_load(
            file.as_ptr(),
            file.len(),
            words.as_mut_ptr(),
            words.len(),
            module.as_mut_ptr(),
            module.len(),
            answer.as_mut_ptr(),
            answer.len(),
        )
    };
    assert_eq!(done, 0, "dis_load took a module or an answer to be short");
    answer
}

pub fn write(module: &[i32], file: &[u8], words: &[i32], out: &mut [u8]) -> Answer {
    let mut answer = [0; 4];
    let done = unsafe {
        dis_write(
            module.as_ptr(),
            module.len(),
            file.as_ptr(),
            file.len(),
            words.as_ptr(),
            words.len(),
            out.as_mut_ptr(),
            out.len(),
            answer.as_mut_ptr(),
            answer.len(),
        )
    };
    assert_eq!(done, 0, "dis_write took a module or an answer to be short");
    answer
}

pub fn walk(event: &Event, t: &Tables, state: &mut [i32]) -> Answer {
    let mut answer = [0; 4];
    let (module, modules) = (t.numbers.as_ptr(), t.numbers.len());
    let (file, files) = (t.file.as_ptr(), t.file.len());
    let (words, word_count) = (t.words.as_ptr(), t.words.len());
    let (s, sn) = (state.as_mut_ptr(), state.len());
    let (a, an) = (answer.as_mut_ptr(), answer.len());
    let done = unsafe {
        match event {
            Event::Entry => dis_entry(module, modules, file, files, words, word_count, s, sn, a, an),
            Event::Export(k) => dis_export(module, modules, file, files, words, word_count, *k, s, sn, a, an),
            Event::Next => dis_next(module, modules, file, files, words, word_count, s, sn, a, an),
            Event::Raise(name) => {
                let (n, nn) = (name.as_ptr(), name.len());
                dis_raise(module, modules, file, files, words, word_count, n, nn, s, sn, a, an)
            }
        }
    };
    assert_eq!(done, 0, "an event took a module, a state or an answer to be short");
    answer
}

/// The tables that our loader leaves, where it accepts.
pub fn loaded(file: &[u8]) -> Option<Tables<'_>> {
    let mut numbers = [0; 16];
    let mut words = vec![0; file.len() * 9 / 2];
    let [0, _, needed, _] = load(file, &mut words, &mut numbers) else {
        return None;
    };
    words.truncate(needed as usize);
    Some(Tables { numbers, file: file.into(), words })
}

/// Whether a module, a state or an answer that is too short is answered by -1 with nothing written, and one that is just long
/// enough, or longer, is taken.
pub fn lengths_are_judged() -> bool {
    let file = [0xC0, 0x0C, 0x80, 0x30, 0, 0, 0, 0, 0, 0, 0x7F, 0x7F, 0, 0];
    let t = loaded(&file).expect("K14");
    let tried = |modules: usize, answers: usize, states: usize| {
        let (mut module, mut answer, mut state, mut out) = ([9; 17], [9; 5], [9; 4], [9; 16]);
        let (m, a, s) = (module.as_mut_ptr(), answer.as_mut_ptr(), state.as_mut_ptr());
        let (f, o, w) = (file.as_ptr(), out.as_mut_ptr(), 4 as *mut i32);
        let numbers = t.numbers.as_ptr();
        // t.numbers has 16: it is never lent as longer than that.
        let given = modules.min(16);
        let done = unsafe {
            let load = dis_load(f, 14, w, 0, m, modules, a, answers);
            let write = dis_write(numbers, given, f, 14, w, 0, o, 14, a, answers);
            let entry = dis_entry(numbers, given, f, 14, w, 0, s, states, a, answers);
            let export = dis_export(numbers, given, f, 14, w, 0, 0, s, states, a, answers);
            let next = dis_next(numbers, given, f, 14, w, 0, s, states, a, answers);
            let raise = dis_raise(numbers, given, f, 14, w, 0, f, 0, s, states, a, answers);
            [load, write, entry, export, next, raise]
        };
        (done, module, answer, state, out)
    };
    let untouched = ([9; 17], [9; 5], [9; 4], [9; 16]);
    let refused = |modules, answers| {
        let (done, module, answer, state, out) = tried(modules, answers, 3);
        done == [-1; 6] && (module, answer, state, out) == untouched
    };
    let (done, _, _, state, _) = tried(16, 4, 2);
    let short_state = done == [0, 0, -1, -1, -1, -1] && state == [9; 4];
    let taken = |modules, answers, states| {
        let (done, module, answer, state, _) = tried(modules, answers, states);
        done == [0; 6] && (module[16], answer[4], state[3]) == (9, 9, 9)
    };
    let refuses = (0..16).all(|modules| refused(modules, 4)) && (0..4).all(|answers| refused(16, answers));
    refuses && short_state && taken(16, 4, 3) && taken(17, 5, 4)
}
