//! Both sides on the same modules, in one process, in turn: nanoseconds a byte of the files, medians.
//!
//! Our words and output are lent once, were touched before the first measured round, and are not cleared between rounds. The Rust
//! makes its own vectors each time; that it frees them is not counted.
use crate::generate::*;
use crate::oracle;
use crate::ours;
use std::hint::black_box;

const KB: usize = 1 << 10;
const MB: usize = 1 << 20;

/// What is measured: a name, and files of about so many bytes together.
type Shape = (&'static str, fn(usize) -> Vec<Vec<u8>>);

const SHAPES: [Shape; 4] = [
    ("many small", many_small),
    ("code", |size| vec![code(size)]),
    ("data and names", |size| vec![data_and_names(size)]),
    ("maps", |size| vec![maps(size)]),
];

/// The largest is a little below refusal 1's limit, since what is written counts as well; 8 MB is for the code alone.
const SIZES: [(&str, usize); 4] = [("64 KB", 64 * KB), ("1 MB", MB), ("8 MB", 8 * MB), ("16 MB", 16 * MB - 4 * KB)];

pub fn table() {
    println!("| module | size | plain pass | load, ours | the Rust's | times | write, ours | the Rust's | times |");
    println!("|---|---|---|---|---|---|---|---|---|");
    for (name, make) in SHAPES {
        for (size_name, size) in SIZES {
            if size == 8 * MB && name != "code" {
                continue;
            }
            let [pass, load, rust_load, write, rust_write] = measure(&make(size));
            let (loads, writes) = (rust_load / load, rust_write / write);
            println!(
                "| {name} | {size_name} | {pass:.2} | {load:.2} | {rust_load:.2} | {loads:.2} | {write:.2} | {rust_write:.2} | {writes:.2} |"
            );
        }
    }
}

/// One side's one operation, over and over: for a profiler.
pub fn one(shape: &str, size: usize, what: &str, rounds: usize) {
    let make = SHAPES.iter().find(|(name, _)| *name == shape).expect("a shape").1;
    let files = make(size);
    let mut lent = Lent::of(&files);
    let modules: Vec<_> = files.iter().map(|file| oracle::load(file).expect("a good file")).collect();
    let words: usize = lent.tables.iter().map(|(_, words)| words.len()).sum();
    println!("{} files, {} bytes, {words} words", files.len(), files.iter().map(Vec::len).sum::<usize>());
    for _ in 0..rounds {
        match what {
            "load" => lent.load(&files),
            "write" => lent.write(&files),
            "rust-load" => drop(black_box(rust_load(&files))),
            "rust-write" => drop(black_box(rust_write(&modules))),
            _ => panic!("load, write, rust-load or rust-write"),
        }
    }
}

/// Nanoseconds a byte: a plain pass, load, the Rust's, write, the Rust's.
fn measure(files: &[Vec<u8>]) -> [f64; 5] {
    let bytes: usize = files.iter().map(Vec::len).sum();
    let mut lent = Lent::of(files);
    let modules: Vec<_> = files.iter().map(|file| oracle::load(file).expect("a good file")).collect();
    let rounds = (256 * MB / bytes).clamp(15, 401);
    let mut times: [Vec<f64>; 5] = Default::default();
    for _ in 0..rounds {
        times[0].push(timed(|| plain_pass(files)));
        times[1].push(timed(|| lent.load(files)));
        times[2].push(timed(|| rust_load(files)));
        times[3].push(timed(|| lent.write(files)));
        times[4].push(timed(|| rust_write(&modules)));
    }
    times.map(|mut each| {
        each.sort_by(f64::total_cmp);
        each[each.len() / 2] / bytes as f64
    })
}

/// Nanoseconds until there is a result; freeing it does not count.
fn timed<T>(work: impl FnOnce() -> T) -> f64 {
    let start = processor_time();
    let result = black_box(work());
    let time = processor_time() - start;
    drop(result);
    time as f64
}

/// This thread's time on a processor, in nanoseconds: what else the machine does is not in it.
fn processor_time() -> i64 {
    extern "C" {
        fn clock_gettime(clock: i32, time: *mut [i64; 2]) -> i32;
    }
    const THREAD_CPUTIME: i32 = 3;
    let mut time = [0; 2];
    assert_eq!(unsafe { clock_gettime(THREAD_CPUTIME, &mut time) }, 0);
    time[0] * 1_000_000_000 + time[1]
}

fn plain_pass(files: &[Vec<u8>]) -> u64 {
    files.iter().map(|file| file.iter().map(|b| *b as u64).sum::<u64>()).sum()
}

fn rust_load(files: &[Vec<u8>]) -> Vec<ricevm_core::Module> {
    let load = |file: &Vec<u8>| ricevm_loader::load(black_box(file)).expect("a good file");
    files.iter().map(load).collect()
}

fn rust_write(modules: &[ricevm_core::Module]) -> Vec<Vec<u8>> {
    let write = |module| oracle::write(black_box(module)).expect("a module that can be written");
    modules.iter().map(write).collect()
}

/// The memory that our side is lent: a run of words and sixteen numbers for each file, one output for all.
struct Lent {
    tables: Vec<(ours::Numbers, Vec<i32>)>,
    out: Vec<u8>,
}

impl Lent {
    fn of(files: &[Vec<u8>]) -> Self {
        let needed = |file: &Vec<u8>| match ours::load(file, &mut [], &mut [0; 16]) {
            [20, _, _, needed] => needed as usize,
            [0, _, needed, _] => needed as usize,
            refused => panic!("a good file was refused: {refused:?}"),
        };
        let mut lent = Lent {
            tables: files.iter().map(|file| ([0; 16], vec![0; needed(file)])).collect(),
            out: vec![1; ours::FILE_LIMIT],
        };
        lent.load(files);
        lent
    }

    fn load(&mut self, files: &[Vec<u8>]) {
        for (file, (numbers, words)) in files.iter().zip(&mut self.tables) {
            let answer = ours::load(black_box(file), words, numbers);
            assert_eq!(answer[0], 0);
        }
    }

    fn write(&mut self, files: &[Vec<u8>]) {
        for (file, (numbers, words)) in files.iter().zip(&self.tables) {
            let answer = ours::write(black_box(numbers), file, words, &mut self.out);
            assert_eq!(answer[0], 0);
        }
    }
}

fn many_small(size: usize) -> Vec<Vec<u8>> {
    let mut rng = Rng(2);
    let most = Most { code: 40, types: 8, items: 12, exports: 6, imports: 3, handlers: 2, text: 16 };
    let mut files = Vec::new();
    let mut bytes = 0;
    while bytes < size {
        let file = module(&mut rng, most, 0);
        bytes += file.len();
        files.push(file);
    }
    files.pop();
    files
}

/// A file whose sections are made by the caller, with sizes put in front.
fn assembled(flags: i32, [code, types, exports]: [usize; 3], body: Vec<u8>) -> Vec<u8> {
    let mut file = Vec::with_capacity(body.len() + 40);
    operand(&mut file, ricevm_core::XMAGIC, 0);
    for value in [flags, 0, code as i32, 0, types as i32, exports as i32, -1, -1] {
        operand(&mut file, value, 0);
    }
    file.extend(body);
    file
}

/// Records by the maker until the body has so many bytes; how many there are.
fn records(maker: &mut Maker, size: usize, record: impl Fn(&mut Maker)) -> usize {
    let mut count = 0;
    while maker.out.len() < size {
        record(maker);
        count += 1;
    }
    count
}

fn with_maker(make: impl FnOnce(&mut Maker) -> (i32, [usize; 3])) -> Vec<u8> {
    let mut maker = Maker::new(3, 0);
    let (flags, sizes) = make(&mut maker);
    assembled(flags, sizes, maker.out)
}

fn code(size: usize) -> Vec<u8> {
    with_maker(|maker| {
        let code = records(maker, size - 64, Maker::instruction);
        maker.out.extend([0, b'm', 0, 0, 0]);
        (64, [code, 0, 0])
    })
}

/// Half of it data items, a quarter exports, a quarter functions of one import module.
fn data_and_names(size: usize) -> Vec<u8> {
    with_maker(|maker| {
        records(maker, size / 2, |maker| maker.item(200));
        maker.out.extend([0, b'm', 0]);
        let exports = records(maker, size * 3 / 4, |maker| {
            maker.out.extend([0x7F, 0x7F]);
            maker.function(60);
        });
        let mut functions = Maker::new(4, 0);
        let count = records(&mut functions, size / 4 - 256, |maker| maker.function(60));
        operand(&mut maker.out, 1, 0);
        operand(&mut maker.out, count as i32, 0);
        maker.out.extend(functions.out);
        maker.out.push(0);
        (64, [0, 0, exports])
    })
}

fn maps(size: usize) -> Vec<u8> {
    with_maker(|maker| {
        let types = records(maker, size - 2048, |maker| maker.descriptor(600));
        maker.out.extend([0, b'm', 0, 0, 0]);
        (64, [0, types, 0])
    })
}
