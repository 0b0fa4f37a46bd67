//! The port beside upstream, in one process, on the same bytes. The sums of both sides must agree.
//!
//!     side_by_side times ROUNDS MILLISECONDS [PART_OF_A_NAME..]
//!     side_by_side counts [PART_OF_A_NAME..]                      under callgrind
//!     side_by_side fields ROUNDS FILE                             the toolchain alone
//!     side_by_side growth                                         under callgrind, the port alone
//!
//! `times` prints `name peer_ns port_ns toolchain_ns` of each call, each the least of ROUNDS rounds that alternate. The
//! last is the time of what the port leaves to the toolchain, or 0 where no operation does that alone. `fields` prints the
//! least milliseconds in which the toolchain makes a map of the fields of a section and looks for the values of each name.
//! The others dump callgrind's counts, under names that tools/bench reads.

mod growth;
mod inputs;
mod peer;

use std::arch::asm;
use std::ffi::CString;
use std::hint::black_box;
use std::time::Instant;

unsafe extern "C" {
    fn headers_bench(
        kind: u32,
        op: u32,
        text: *const u8,
        text_len: usize,
        words: *const u8,
        words_len: usize,
        n: usize,
    ) -> u64;
}

fn port(kind: u32, op: u32, text: &[u8], words: &[u8], n: usize) -> u64 {
    unsafe { headers_bench(kind, op, text.as_ptr(), text.len(), words.as_ptr(), words.len(), n) }
}

pub struct Op {
    pub name: &'static str,
    pub kind: u32,
    pub op: u32,
    pub text: String,
    pub words: String,
    /// How many operations one pass over the groups is.
    pub per_pass: usize,
}

const ZERO_STATS: u64 = 0x4354_0001;
const DUMP_STATS_AT: u64 = 0x4354_0003;

/// A request to callgrind, as its header file makes one. It does nothing where the program runs by itself.
fn ask_callgrind(request: u64, argument: *const i8) {
    let words = [request, argument as u64, 0, 0, 0, 0];
    let mut answer = 0u64;
    unsafe {
        asm!(
            "rol rdi, 3", "rol rdi, 13", "rol rdi, 61", "rol rdi, 51", "xchg rbx, rbx",
            in("rax") &words, inout("rdx") answer,
        );
    }
    black_box(answer);
}

/// Counts the instructions of a call under a name.
fn count(name: &str, call: impl FnOnce() -> u64) -> u64 {
    let name = CString::new(name).unwrap();
    ask_callgrind(ZERO_STATS, std::ptr::null());
    let sum = black_box(call());
    ask_callgrind(DUMP_STATS_AT, name.as_ptr().cast());
    sum
}

fn seconds(f: impl FnOnce() -> u64) -> (f64, u64) {
    let start = Instant::now();
    let sum = f();
    (start.elapsed().as_secs_f64(), sum)
}

/// The operation of kind 4 that does what a call of the port leaves to the toolchain, and nothing else.
fn of_toolchain(name: &str) -> Option<u32> {
    match name {
        "allow_methods_iter_1" | "allow_methods_iter_10" | "allow_methods_iter_100" | "allow_iter_10" => Some(0),
        "age_encode" | "content_length_encode" => Some(1),
        "host_encode" => Some(2),
        "map_typed_insert_length" => Some(3),
        "vary_encode" | "allow_methods_encode" | "allow_headers_encode" | "etag_encode" | "if_match_encode"
        | "if_range_encode_tag" | "range_encode" | "server_encode" | "set_cookie_encode_20" => Some(4),
        "basic_decode" => Some(6),
        "basic_encode" => Some(7),
        "websocket_accept_from_key" => Some(8),
        _ => None,
    }
}

fn time(op: &Op, rounds: usize, target: f64) {
    let (text, words) = (op.text.as_bytes(), op.words.as_bytes());
    let run_peer = |n| seconds(|| peer::run(op.kind, op.op, black_box(text), black_box(words), n));
    let run_port = |n| seconds(|| port(op.kind, op.op, black_box(text), black_box(words), n));
    let part = of_toolchain(op.name);
    let run_part = |n| part.map_or((0.0, 0), |it| seconds(|| port(4, it, black_box(text), black_box(words), n)));
    // The setup is timed with no pass, and taken off.
    let setup = run_peer(0).0.max(run_port(0).0);
    let mut n = 1;
    while run_peer(n).0.min(run_port(n).0) < target + 2.0 * setup {
        n *= 2;
    }
    let mut least = [f64::MAX; 6];
    for _ in 0..rounds {
        let (peer_time, peer_sum) = run_peer(n);
        let (port_time, port_sum) = run_port(n);
        let (part_time, part_sum) = run_part(n);
        assert_eq!(peer_sum, port_sum, "{}: the sums differ", op.name);
        assert_ne!(peer_sum, 0, "{}: no work", op.name);
        assert!(part.is_none() || part_sum == port_sum, "{}: the toolchain's sum differs", op.name);
        let times = [peer_time, port_time, part_time, run_peer(0).0, run_port(0).0, run_part(0).0];
        for (least, time) in least.iter_mut().zip(times) {
            *least = least.min(time);
        }
    }
    let ops = (n * op.per_pass) as f64;
    let [peer, port, part] = [0, 1, 2].map(|at| (least[at] - least[at + 3]) / ops * 1e9);
    println!("{} {peer:.2} {port:.2} {part:.2}", op.name);
}

/// The instructions of few passes and of more, so that the setup can be taken off. The first run finds the allocator
/// without memory, and isn't counted.
fn count_both(op: &Op) {
    let (text, words) = (op.text.as_bytes(), op.words.as_bytes());
    for passes in [1, 2, 10] {
        let at = format!("{} {} {passes} {}", op.name, op.kind, op.per_pass);
        count(&format!("peer {at}"), || peer::run(op.kind, op.op, black_box(text), black_box(words), passes));
        count(&format!("port {at}"), || port(op.kind, op.op, black_box(text), black_box(words), passes));
    }
}

/// The least time in which the toolchain makes a map of the fields of a section.
fn time_fields(section: &[u8], rounds: usize) -> f64 {
    let run = |n| seconds(|| port(4, 5, black_box(section), &[], n));
    let mut least = [f64::MAX; 2];
    for _ in 0..rounds {
        for (least, passes) in least.iter_mut().zip([1, 4]) {
            let (time, sum) = run(passes);
            assert_ne!(sum, 0, "no work");
            *least = least.min(time);
        }
    }
    (least[1] - least[0]) / 3.0
}

fn main() {
    let args: Vec<String> = std::env::args().skip(1).collect();
    let mode = args.first().map_or("times", String::as_str);
    if mode == "fields" {
        let section = std::fs::read(&args[2]).unwrap();
        println!("{:.3}", time_fields(&section, args[1].parse().unwrap()) * 1e3);
        return;
    }
    if mode == "growth" {
        return growth::all(|name, bytes, kind, op, text, words| {
            // (the first run finds the allocator without memory, and isn't counted)
            for passes in [0, 1, 3] {
                let run = || port(kind, op, text.as_bytes(), words.as_bytes(), passes.max(1));
                count(&format!("{name} {bytes} {passes}"), run);
            }
        });
    }
    let only = &args[if mode == "times" { 3 } else { 1 }..];
    for op in inputs::all() {
        if !only.is_empty() && !only.iter().any(|part| op.name.contains(part.as_str())) {
            continue;
        }
        if mode == "times" {
            time(&op, args[1].parse().unwrap(), args[2].parse::<f64>().unwrap() / 1e3);
        } else {
            count_both(&op);
        }
    }
}
