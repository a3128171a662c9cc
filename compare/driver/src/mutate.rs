//! Wrong programs in place of ours. The comparison must notice each; the script `mutations` also edits the copied Rust.
use crate::ours::*;
use crate::walk::Event;

/// Those of document 01 first.
pub const WRONG: [(&str, Side); 19] = [
    ("a loader that refuses all", loads(|_, _, _| [2, 1, 0, 0])),
    ("a loader that always answers K14", loads(always_k14)),
    ("a loader that reads the first instruction and fills zeros for the rest", loads(first_instruction)),
    ("a writer that touches nothing", writes(touches_nothing)),
    ("a writer that reports a length it did not write", writes(one_byte_short)),
    ("a walk that stays idle", walks(|_, _, state| stay(state))),
    ("a walk that moves on its first event only", walks(first_event_only)),
    ("a loader that fills the words before refusal 20", loads(fills_before_20)),
    ("a loader that fills the module before it refuses", loads(numbers_before_refusal)),
    ("a loader that clears the words past those needed", loads(clears_the_rest)),
    ("a loader that tells a byte more", loads(a_byte_more)),
    ("a loader that tells a word less", loads(a_word_less)),
    ("a loader that keeps the count of kinds 5 to 7", loads(count_of_arrays)),
    ("a loader that takes a leftover byte for a fault", loads(no_leftovers)),
    ("a writer that writes before refusal 24", writes(writes_before_24)),
    ("a writer that clears the output past its end", writes(clears_past_the_end)),
    ("a writer that keeps the signed magic", writes(keeps_magic)),
    ("a writer that leaves out the closing zero of section 8", writes(last_byte_cut)),
    ("a writer that takes a flag for granted", writes(takes_the_flags)),
];

const fn loads(load: fn(&[u8], &mut [i32], &mut [i32]) -> Answer) -> Side {
    Side { load, ..TRUE }
}

const fn writes(write: fn(&[i32], &[u8], &[i32], &mut [u8]) -> Answer) -> Side {
    Side { write, ..TRUE }
}

const fn walks(walk: fn(&Event, &Tables, &mut [i32]) -> Answer) -> Side {
    Side { walk, ..TRUE }
}

const K14: [u8; 14] = [0xC0, 0x0C, 0x80, 0x30, 0, 0, 0, 0, 0, 0, 0x7F, 0x7F, 0, 0];

fn always_k14(_: &[u8], words: &mut [i32], module: &mut [i32]) -> Answer {
    load(&K14, words, module)
}

fn first_instruction(file: &[u8], words: &mut [i32], module: &mut [i32]) -> Answer {
    let answer = load(file, words, module);
    if let [0, _, needed, _] = answer {
        let code = 9 * module[CODE] as usize;
        words[9.min(code)..code.min(needed as usize)].fill(0);
    }
    answer
}

fn fills_before_20(file: &[u8], words: &mut [i32], module: &mut [i32]) -> Answer {
    let answer = load(file, words, module);
    if let ([20, ..], Some(word)) = (answer, words.first_mut()) {
        *word = 0;
    }
    answer
}

fn numbers_before_refusal(file: &[u8], words: &mut [i32], module: &mut [i32]) -> Answer {
    let answer = load(file, words, module);
    if answer[0] > 9 {
        module[MAGIC] = ricevm_core::XMAGIC;
    }
    answer
}

fn clears_the_rest(file: &[u8], words: &mut [i32], module: &mut [i32]) -> Answer {
    let answer = load(file, words, module);
    if let [0, _, needed, _] = answer {
        words[needed as usize..].fill(0);
    }
    answer
}

fn a_byte_more(file: &[u8], words: &mut [i32], module: &mut [i32]) -> Answer {
    match load(file, words, module) {
        [0, used, needed, last] if (used as usize) < file.len() => [0, used + 1, needed, last],
        answer => answer,
    }
}

fn a_word_less(file: &[u8], words: &mut [i32], module: &mut [i32]) -> Answer {
    match load(file, words, module) {
        [0, used, needed, last] if needed > 0 => [0, used, needed - 1, last],
        answer => answer,
    }
}

fn count_of_arrays(file: &[u8], words: &mut [i32], module: &mut [i32]) -> Answer {
    let answer = load(file, words, module);
    if answer[0] == 0 {
        let items = 9 * module[CODE] as usize + 5 * module[TYPES] as usize;
        for item in words[items..].chunks_mut(5).take(module[ITEMS] as usize) {
            if (5..=7).contains(&item[0]) {
                item[2] = 2;
            }
        }
    }
    answer
}

fn no_leftovers(file: &[u8], words: &mut [i32], module: &mut [i32]) -> Answer {
    let before = (words.to_vec(), module.to_vec());
    match load(file, words, module) {
        [0, used, ..] if used as usize != file.len() => {
            words.copy_from_slice(&before.0);
            module.copy_from_slice(&before.1);
            [26, 0, used, file.len() as i64 - used]
        }
        answer => answer,
    }
}

fn touches_nothing(module: &[i32], file: &[u8], words: &[i32], out: &mut [u8]) -> Answer {
    write(module, file, words, &mut out.to_vec())
}

fn one_byte_short(module: &[i32], file: &[u8], words: &[i32], out: &mut [u8]) -> Answer {
    let last = out.to_vec();
    let answer = write(module, file, words, out);
    if let [0, len, ..] = answer {
        out[len as usize - 1] = last[len as usize - 1];
    }
    answer
}

fn writes_before_24(module: &[i32], file: &[u8], words: &[i32], out: &mut [u8]) -> Answer {
    let answer = write(module, file, words, out);
    if answer[0] == 24 && !out.is_empty() {
        out[0] = 0xC0;
    }
    answer
}

fn clears_past_the_end(module: &[i32], file: &[u8], words: &[i32], out: &mut [u8]) -> Answer {
    let answer = write(module, file, words, out);
    if let [0, len, ..] = answer {
        out[len as usize..].fill(0);
    }
    answer
}

fn keeps_magic(module: &[i32], file: &[u8], words: &[i32], out: &mut [u8]) -> Answer {
    let answer = write(module, file, words, out);
    if answer[0] == 0 {
        out[..4].copy_from_slice(&(module[MAGIC] as u32 | 0xC000_0000).to_be_bytes());
    }
    answer
}

fn last_byte_cut(module: &[i32], file: &[u8], words: &[i32], out: &mut [u8]) -> Answer {
    let whole = write(module, file, words, &mut out.to_vec());
    match whole {
        [0, len, ..] if module[FLAGS] & 32 != 0 => {
            let mut all = vec![0; len as usize];
            write(module, file, words, &mut all);
            out[..len as usize - 1].copy_from_slice(&all[..len as usize - 1]);
            [0, len - 1, 0, 0]
        }
        _ => write(module, file, words, out),
    }
}

fn takes_the_flags(module: &[i32], file: &[u8], words: &[i32], out: &mut [u8]) -> Answer {
    match write(module, file, words, out) {
        [23, ..] => {
            let mut flagged = module.to_vec();
            flagged[FLAGS] |= 96;
            write(&flagged, file, words, out)
        }
        answer => answer,
    }
}

fn stay(state: &mut [i32]) -> Answer {
    state[..3].fill(0);
    [0; 4]
}

fn first_event_only(event: &Event, t: &Tables, state: &mut [i32]) -> Answer {
    if state[0] == 0 {
        walk(event, t, state)
    } else {
        [0; 4]
    }
}
