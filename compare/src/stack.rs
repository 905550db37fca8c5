//! The stack that each kiban_* call takes: the call runs on a painted stack, and the deepest word that lost its paint says how far it went.
//! Counted are its return address, the arguments that pass on the stack, and all that it and what it calls keep there.
use crate::progress::Progress;
use crate::say::say;
use crate::{End, ours, worst};
use oracle::lines::{Rec, rust_builder};
use oracle::{Rng, paper};
use std::arch::asm;

const PAINT: u64 = 0xa5a5_a5a5_a5a5_a5a5;
/// The words of the painted stack: 8 MiB, what a program's stack usually has.
const WORDS: usize = 1 << 20;

/// Runs `work` on the painted stack and paints that anew: the bytes from the first word that was written to the top.
fn depth<F: FnMut()>(stack: &mut [u64], mut work: F) -> usize {
    extern "C" fn enter<F: FnMut()>(work: *mut F) {
        // SAFETY: the pointer is to `work` of depth.
        unsafe { (*work)() }
    }
    let top = stack.as_mut_ptr_range().end as usize & !15;
    // SAFETY: `enter` gets the painted stack, writable and aligned to 16; the old stack pointer waits in r12, which a C function keeps.
    // Nothing unwinds through here: a panic in an extern "C" function ends the program.
    unsafe {
        asm!("mov r12, rsp", "mov rsp, {top}", "call {enter}", "mov rsp, r12", top = in(reg) top,
            enter = in(reg) enter::<F> as extern "C" fn(*mut F), in("rdi") &mut work, out("r12") _, clobber_abi("C"));
    }
    let untouched = stack.iter().take_while(|&&w| w == PAINT).count();
    assert!(untouched > 0, "the painted stack is too short");
    stack[untouched..].fill(PAINT);
    top - (stack.as_ptr() as usize + 8 * untouched)
}

/// The deepest of a call's inputs, and the shallowest.
struct Worst {
    call: &'static str,
    inputs: usize,
    bytes: usize,
    least: usize,
    input: String,
}

/// The table, filled call by call.
struct Depths {
    stack: Vec<u64>,
    /// What entering the painted stack takes by itself.
    entering: usize,
    rows: Vec<Worst>,
}

impl Depths {
    fn new() -> Self {
        let mut stack = vec![PAINT; WORDS];
        let entering = depth(&mut stack, || ());
        Depths { stack, entering, rows: Vec::new() }
    }
    fn run(&mut self, call: &'static str, input: &str, work: impl FnMut()) {
        let bytes = depth(&mut self.stack, work) - self.entering;
        let at = self.rows.iter().position(|r| r.call == call).unwrap_or(self.rows.len());
        if at == self.rows.len() {
            self.rows.push(Worst { call, inputs: 0, bytes: 0, least: usize::MAX, input: String::new() });
        }
        let row = &mut self.rows[at];
        row.inputs += 1;
        row.least = row.least.min(bytes);
        if row.bytes < bytes {
            (row.bytes, row.input) = (bytes, input.into());
        }
    }
}

fn numbers(d: &mut Depths) {
    d.run("kiban_mix", "1", || assert!(ours::mix(1) != 1));
    for length in [0, 1, 3, 7, 8, 13, 100, 1_048_576] {
        let key = vec![7; length];
        d.run("kiban_hash", &format!("{length} bytes"), || assert!(ours::hash(&key, 1) != 0));
    }
}

/// Hashes in orders that a division by pivots may take badly.
fn orders(n: usize) -> Vec<(&'static str, Vec<u64>)> {
    let mut r = Rng(n as u64);
    let random = (0..n).map(|_| r.next()).collect();
    let m = n as u64;
    vec![
        ("random", random),
        ("rising", (0..m).collect()),
        ("falling", (0..m).rev().collect()),
        ("equal", vec![7; n]),
        ("sawtooth of 1,000", (0..m).map(|i| i % 1_000).collect()),
        ("sawtooth of 3", (0..m).map(|i| i % 3).collect()),
        ("up and down", (0..m).map(|i| i.min(m - i)).collect()),
        ("interleaved", (0..m).map(|i| if i % 2 == 0 { i } else { m - i }).collect()),
        ("powers of two", (0..m).map(|i| 1 << (i * 7 % 64)).collect()),
        ("rising, the last one least", (1..m).chain([0]).collect()),
        ("worst", worst::order(n)),
        ("alternating", worst::alternating(n)),
    ]
}

fn sorting(d: &mut Depths) {
    for n in [1_000, 65_536, 1_500_000] {
        for (order, mut hashes) in orders(n) {
            d.run("kiban_sort", &format!("{n} hashes, {order}"), || assert!(ours::sort(&mut hashes) == 0));
            assert!(hashes.is_sorted());
        }
    }
}

/// An index's records: rising keys, so many versions each.
struct Shape {
    keys: usize,
    bytes: usize,
    versions: u64,
}

const SHAPES: &[Shape] = &[
    Shape { keys: 1, bytes: 8, versions: 1 },
    Shape { keys: 2, bytes: 1_048_576, versions: 1 },
    Shape { keys: 3, bytes: 8, versions: 2_000 },
    Shape { keys: 1_000, bytes: 16, versions: 1 },
    Shape { keys: 10_000, bytes: 300, versions: 2 },
    Shape { keys: 65_536, bytes: 16, versions: 1 },
];

impl Shape {
    fn name(&self) -> String {
        format!("{} keys of {} bytes, versions each: {}", self.keys, self.bytes, self.versions)
    }
    fn records(&self) -> Vec<Rec> {
        let key = |i: usize| (i as u64).to_be_bytes().into_iter().cycle().take(self.bytes).collect();
        let record = |i, v| Rec { new: v == 0, kind: 1, key: key(i), seq: self.versions - v, len: 8, offset: 0 };
        (0..self.keys).flat_map(|i| (0..self.versions).map(move |v| (i, v))).map(|(i, v)| record(i, v)).collect()
    }
}

/// Every call on an index of a shape, from adding to reading.
fn index(d: &mut Depths, shape: &Shape) {
    let (name, recs) = (shape.name(), shape.records());
    let mut arena = vec![0; recs.iter().map(|r| 29 + r.key.len()).sum()];
    let (mut state, mut place) = ([0; 3], [0]);
    for (i, r) in recs.iter().enumerate() {
        let mut add = || {
            assert!(ours::add(&mut arena, &mut state, &r.key, 1, r.len, r.seq, r.new as u8, &mut place) == 0);
        };
        if i % (recs.len() / 100 + 1) == 0 {
            d.run("kiban_add", &name, add)
        } else {
            add()
        }
        let mut set = || assert!(ours::set_offset(&mut arena, &state, place[0], 0) == 0);
        if i % (recs.len() / 100 + 1) == 0 { d.run("kiban_set_offset", &name, set) } else { set() }
    }
    arena.truncate(state[0] as usize);
    let n = shape.keys;
    let mut body = vec![0; 32 + 4 * n.div_ceil(3) + 12 * n + arena.len()];
    let (mut wide, mut narrow) = (vec![0; 2 * n], vec![0; 8 * n + 8]);
    d.run("kiban_finish", &name, || assert!(ours::finish(&arena, &mut body, &mut wide, &mut narrow, &mut [0]) == 0));
    assert!(body == rust_builder(&recs).unwrap().finish().unwrap());
    d.run("kiban_validate", &name, || assert!(ours::validate(&body, 8) == 0));
    let (key, absent, mut answer) = (&recs[recs.len() / 2].key, vec![9; shape.bytes + 1], [0; 4]);
    d.run("kiban_get", &name, || assert!(ours::get(&body, &[0; 8], key, None, &mut answer) == 0));
    d.run("kiban_get", &name, || assert!(ours::get(&body, &[0; 8], key, Some(0), &mut answer) == 1));
    d.run("kiban_get", &name, || assert!(ours::get(&body, &[0; 8], &absent, None, &mut answer) == 1));
}

fn filters(d: &mut Depths) {
    for n in [0, 1, 1_000, 10_000, 65_536] {
        for (order, mut hashes) in orders(n.max(1)) {
            hashes.truncate(n);
            let name = format!("{n} hashes, {order}");
            let c = if n == 0 { 0 } else { paper::sizing(n as u64).2 as usize };
            let (mut wide, mut narrow, mut bytes) = (vec![0; c + n], vec![0; 2 * c + n], vec![0; 48 + c]);
            let mut written = [0];
            d.run("kiban_filter_build", &name, || {
                assert!(ours::filter_build(&mut hashes, &mut wide, &mut narrow, &mut bytes, &mut written) == 0)
            });
            bytes.truncate(written[0] as usize);
            let (mut answer, mut answers) = ([0; 6], vec![0; n]);
            d.run("kiban_filter_read", &name, || assert!(ours::filter_read(&bytes, &mut answer) == 0));
            d.run("kiban_filter_ask", &name, || {
                assert!(ours::filter_ask(&bytes, hashes.first().copied().unwrap_or(0)) == 1)
            });
            d.run("kiban_filter_ask_all", &name, || assert!(ours::filter_ask_all(&bytes, &hashes, &mut answers) == 0));
        }
    }
}

fn listings(d: &mut Depths) {
    let shapes = [(1, 8, 1), (1, 65_000, 1), (1, 8, 3_000), (700, 16, 2), (1_300, 8, 1)];
    for (keys, bytes, versions) in shapes {
        let shape = Shape { keys, bytes, versions };
        let mut input = [9u64.to_le_bytes(), 8u64.to_le_bytes()].concat();
        input.extend(rust_builder(&shape.records()).unwrap().finish().unwrap());
        assert!(input.len() <= 65_536);
        let (mut out, mut written) = (vec![0; 131_072], [0]);
        for cut in [0, 1, input.len() - 3] {
            let part = &input[..input.len() - cut];
            d.run("kiban_listing", &shape.name(), || assert!(ours::listing(part, &mut out, &mut written) == 0));
        }
    }
}

/// Prints the table: the deepest stack of each call, and the input that takes it.
pub fn run_all() -> End {
    let waiting = Progress::waiting("stack");
    let mut d = Depths::new();
    numbers(&mut d);
    sorting(&mut d);
    SHAPES.iter().for_each(|shape| index(&mut d, shape));
    filters(&mut d);
    listings(&mut d);
    drop(waiting);
    say!("{:<22} {:>8} {:>8}  deepest at", "call", "bytes", "inputs");
    for Worst { call, inputs, bytes, least, input } in &d.rows {
        let input = if least == bytes { "every input" } else { input };
        say!("{call:<22} {bytes:>8} {inputs:>8}  {input}");
    }
    End::Same
}
