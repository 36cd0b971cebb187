//! The workloads, as `crates/hip_bench` has them, over any byte string.
use crate::plain::Bytes;
use std::collections::{BTreeMap, HashMap};
use std::ffi::OsStr;
use std::os::unix::ffi::OsStrExt;
use std::path::Path;

const MEBIBYTE: u64 = 1 << 20;

/// The input of a workload.
#[derive(Clone, Copy)]
pub enum Input {
    Row,
    Page,
    Mebibyte,
    Words,
    Records,
    Paths,
}

impl Input {
    /// Bytes from a fixed seed.
    pub fn bytes(self) -> Vec<u8> {
        let mut state = 0x9E37_79B9_7F4A_7C15u64;
        let mut next = move |below: u64| {
            state ^= state << 13;
            state ^= state >> 7;
            state ^= state << 17;
            (state >> 32) % below
        };
        let len = match self {
            Input::Row => 4096,
            Input::Page => 65536,
            Input::Mebibyte => MEBIBYTE,
            Input::Words => {
                let words: Vec<String> = (0..10_000).map(|k| format!("word{k:x}")).collect();
                let drawn: Vec<&str> = (0..100_000).map(|_| words[next(10_000) as usize].as_str()).collect();
                return drawn.join(" ").into_bytes();
            }
            Input::Records => {
                let mut lines = String::new();
                while (lines.len() as u64) < MEBIBYTE {
                    let fields: Vec<String> = (0..8).map(|_| "abcdefghijklmnopqrstuvwxyz-0123456789"[..next(37) as usize].into()).collect();
                    lines += &fields.join(",");
                    lines.push('\n');
                }
                return lines.into_bytes();
            }
            Input::Paths => {
                let mut name = || "abcdefghijklmnopqrstuvwxyz"[..1 + next(12) as usize].to_string();
                let mut path = |k: usize| "/".repeat(k % 2) + &(0..1 + k % 7).map(|_| name()).collect::<Vec<_>>().join("/") + ".txt";
                return (0..10_000).map(|k| path(k) + "\n").collect::<String>().into_bytes();
            }
        };
        (0..len).map(|_| b' ' + next(95) as u8).collect()
    }
}

fn mix(sum: u64, number: u64) -> u64 {
    sum.wrapping_mul(31).wrapping_add(number)
}

fn look(sum: u64, bytes: &[u8]) -> u64 {
    let sum = mix(sum, bytes.len() as u64);
    match (bytes.first(), bytes.last()) {
        (Some(first), Some(last)) => mix(mix(sum, *first as u64), *last as u64),
        _ => sum,
    }
}

fn peek(sum: u64, bytes: &[u8], round: u64, places: u64) -> u64 {
    mix(sum, bytes[(round.wrapping_mul(4099) % places) as usize] as u64)
}

/// Each round puts a value into a ring of 64, which keeps it until another takes its place.
fn ring<'a, V: Bytes<'a>>(rounds: u64, make: impl Fn(u64) -> V) -> u64 {
    let mut values: Vec<V> = (0..64).map(|_| V::default()).collect();
    for round in 0..rounds {
        values[(round % 64) as usize] = make(round);
    }
    values.iter().fold(mix(0, rounds), |sum, value| look(sum, value.bytes()))
}

fn parts<'a, V: Bytes<'a>>(value: V, len: usize, places: u64, rounds: u64) -> u64 {
    ring(rounds, |round| {
        let start = (round.wrapping_mul(7) % places) as usize;
        value.part(start..start + len)
    })
}

fn owned<'a, V: Bytes<'a>>(input: &'a [u8], len: usize, rounds: u64) -> u64 {
    ring(rounds, |round| V::owned(&input[(round.wrapping_mul(7) % 500) as usize..][..len]))
}

fn bytes_set<'a, V: Bytes<'a>>(mut value: V, rounds: u64) -> u64 {
    for round in 0..rounds {
        value.writable()[(round.wrapping_mul(37) % 1024) as usize] = round as u8;
    }
    value.bytes().iter().fold(0, |sum, byte| mix(sum, *byte as u64))
}

fn appends<'a, V: Bytes<'a>>(input: &[u8], rounds: u64) -> u64 {
    let mut value = V::copied(&input[..1024]);
    for round in 0..rounds {
        let start = (round.wrapping_mul(16) % 1024) as usize;
        value.extend_within_vector(&input[start..start + 16], 4096, 1024);
    }
    look(0, value.bytes())
}

/// Each round fills a new value by `fill`.
fn grown<'a, V: Bytes<'a>>(rounds: u64, room: usize, len: u64, fill: impl Fn(&mut V)) -> u64 {
    (0..rounds).fold(0, |sum, round| {
        let mut value = V::with_room(room);
        fill(&mut value);
        peek(mix(sum, value.bytes().len() as u64), value.bytes(), round, len)
    })
}

fn bytes_pushed<'a, V: Bytes<'a>>(input: &[u8], rounds: u64) -> u64 {
    grown(rounds, 0, MEBIBYTE, |value: &mut V| (0..MEBIBYTE as usize).for_each(|k| value.push(input[k % 4096])))
}

fn slices_pushed<'a, V: Bytes<'a>>(input: &[u8], room: usize, rounds: u64) -> u64 {
    let starts = (0..MEBIBYTE as usize / 4).map(|k| k * 16 % 4096);
    grown(rounds, room, 4 * MEBIBYTE, |value: &mut V| starts.clone().for_each(|start| value.push_slice(&input[start..start + 16])))
}

fn moved<'a, V: Bytes<'a>>(mut value: V, rounds: u64) -> u64 {
    (0..rounds).fold(0, |sum, round| {
        match round % 2 {
            0 => value.writable().make_ascii_uppercase(),
            _ => value.writable().make_ascii_lowercase(),
        }
        peek(sum, value.bytes(), round, MEBIBYTE)
    })
}

fn moved_in_clone<'a, V: Bytes<'a>>(value: V, rounds: u64) -> u64 {
    (0..rounds).fold(0, |sum, round| {
        let mut clone = value.clone();
        clone.writable().make_ascii_uppercase();
        peek(sum, clone.bytes(), round, MEBIBYTE)
    })
}

fn popped<'a, V: Bytes<'a>>(value: V, rounds: u64) -> u64 {
    (0..rounds).fold(0, |sum, _| {
        let mut clone = value.clone();
        let mut bytes = 0u64;
        while let Some(byte) = clone.pop() {
            bytes = bytes.wrapping_add(byte as u64);
        }
        mix(sum, bytes)
    })
}

fn truncated<'a, V: Bytes<'a>>(value: V, rounds: u64) -> u64 {
    let mut sum = 0u64;
    for _ in 0..rounds {
        let mut clone = value.clone();
        while clone.bytes().len() >= 16 {
            clone.truncate(clone.bytes().len() - 16);
            sum = sum.wrapping_add(clone.bytes().len() as u64);
            sum = sum.wrapping_add(clone.bytes().last().map_or(0, |byte| *byte as u64));
        }
    }
    sum
}

fn made<'a, V: Bytes<'a>>(rounds: u64, make: impl Fn() -> V) -> u64 {
    (0..rounds).fold(0, |sum, round| {
        let value = make();
        peek(look(sum, value.bytes()), value.bytes(), round, MEBIBYTE)
    })
}

fn compared<'a, V: Bytes<'a>>(input: &[u8], len: usize, rounds: u64, compare: impl Fn(&V, &V) -> u64) -> u64 {
    let pair = |k: usize| (V::copied(&input[300 * k..][..len]), V::copied(&input[300 * k..][..len]));
    let pairs: Vec<(V, V)> = (0..8).map(pair).collect();
    (0..rounds).fold(0, |sum: u64, round| {
        let (first, second) = &pairs[(round % 8) as usize];
        sum.wrapping_add(compare(first, second))
    })
}

/// Numbers the words of a text by a map.
macro_rules! numbered {
    ($map:ident, $value:ident, $input:ident, $rounds:ident) => {{
        let text = $value::copied($input);
        (0..$rounds).fold(0, |total, _| {
            let (mut numbers, mut sum, mut start) = ($map::new(), 0u64, 0);
            for word in $input.split(|byte| *byte == b' ') {
                let next = numbers.len() as u64;
                sum = sum.wrapping_add(*numbers.entry(text.part(start..start + word.len())).or_insert(next));
                start += word.len() + 1;
            }
            mix(mix(total, sum), numbers.len() as u64)
        })
    }};
}

/// Each round takes the fields of each line, which are kept until those of the next are there.
fn records<'a, V: Bytes<'a>>(text: V, rounds: u64) -> u64 {
    let whole = std::str::from_utf8(text.bytes()).unwrap_or("");
    let place = |field: &str| field.as_ptr() as usize - whole.as_ptr() as usize;
    let (mut sum, mut kept) = (0, Vec::<V>::new());
    for _ in 0..rounds {
        for line in whole.lines() {
            kept = line.split(',').map(|field| text.part(place(field)..place(field) + field.len())).collect();
            let len: usize = kept.iter().map(|field| field.bytes().len()).sum();
            sum = mix(mix(sum, kept.len() as u64), len as u64);
        }
    }
    kept.iter().fold(sum, |sum, field| look(sum, field.bytes()))
}

/// Each round adds what a call gives of each line as a path, which Rust's `Path` lends.
fn of_paths<'a, V: Bytes<'a>>(input: &[u8], rounds: u64, call: impl Fn(&Path) -> Option<usize>) -> u64 {
    let lines: Vec<V> = input.split(|byte| *byte == b'\n').filter(|line| !line.is_empty()).map(V::copied).collect();
    (0..rounds).fold(0, |sum, _| {
        let lens = lines.iter().filter_map(|line| call(Path::new(OsStr::from_bytes(line.bytes()))));
        mix(lens.fold(sum, |sum, len| sum.wrapping_add(len as u64)), 7)
    })
}

pub struct Row {
    pub name: &'static str,
    pub input: Input,
    pub ours: unsafe extern "C" fn(*const u8, usize, u64) -> u64,
    pub plain: fn(&[u8], u64) -> u64,
    pub hipstr: Option<fn(&[u8], u64) -> u64>,
}

/// The lines: an input and the work over the byte string `V`, and for each backend of hipstr the library's function.
macro_rules! lines {
    ($($input:ident |$i:ident, $r:ident| $work:expr => $($symbol:ident $backend:ident),+;)*) => {
        extern "C" {
            $($(fn $symbol(input: *const u8, len: usize, rounds: u64) -> u64;)+)*
        }

        pub fn rows() -> Vec<Row> {
            vec![$($({
                fn plain($i: &[u8], $r: u64) -> u64 {
                    type V<'a> = Vec<u8>;
                    $work
                }
                #[cfg(hipstr)]
                fn hipstr($i: &[u8], $r: u64) -> u64 {
                    type V<'a> = hipstr::bytes::HipByt<'a, hipstr::$backend>;
                    $work
                }
                Row {
                    name: stringify!($symbol).trim_start_matches("hip_"),
                    input: Input::$input,
                    ours: $symbol,
                    plain,
                    #[cfg(hipstr)]
                    hipstr: Some(hipstr),
                    #[cfg(not(hipstr))]
                    hipstr: None,
                }
            },)+)*]
        }
    };
}

lines! {
    Row |i, r| { let v = V::copied(&i[..10]); ring(r, |_| v.clone()) } => hip_clone_inline Rc, hip_clone_inline_unique Unique;
    Row |i, r| { let v = V::lent(&i[..1024]); ring(r, |_| v.clone()) } => hip_clone_borrowed Rc, hip_clone_borrowed_unique Unique;
    Row |i, r| { let v = V::copied(&i[..1024]); ring(r, |_| v.clone()) } => hip_clone_alloc Rc, hip_clone_alloc_unique Unique;
    Row |i, r| parts(V::copied(&i[..1024]), 10, 1000, r) => hip_slice10 Rc, hip_slice10_unique Unique;
    Row |i, r| parts(V::copied(&i[..1024]), 500, 500, r) => hip_slice500 Rc, hip_slice500_unique Unique;
    Row |i, r| parts(V::lent(&i[..1024]), 500, 500, r) => hip_slice500_borrowed Rc;
    Row |i, r| owned::<V>(i, 10, r) => hip_into_owned10 Rc;
    Row |i, r| owned::<V>(i, 1024, r) => hip_into_owned1k Rc, hip_into_owned1k_unique Unique;
    Row |i, r| bytes_set(V::copied(&i[..1024]), r) => hip_set_byte Rc, hip_set_byte_unique Unique;
    Row |i, r| appends::<V>(i, r) => hip_mutate_append Rc, hip_mutate_append_unique Unique;
    Row |i, r| bytes_pushed::<V>(i, r) => hip_push_byte Rc, hip_push_byte_unique Unique;
    Row |i, r| slices_pushed::<V>(i, 0, r) => hip_push16 Rc, hip_push16_unique Unique;
    Row |i, r| slices_pushed::<V>(i, 4 << 20, r) => hip_push16_room Rc, hip_push16_room_unique Unique;
    Mebibyte |i, r| moved(V::copied(i), r) => hip_upper Rc, hip_upper_unique Unique;
    Mebibyte |i, r| moved_in_clone(V::copied(i), r) => hip_upper_shared Rc, hip_upper_shared_unique Unique;
    Page |i, r| popped(V::copied(i), r) => hip_pop_bytes Rc;
    Page |i, r| truncated(V::copied(i), r) => hip_truncate16 Rc;
    Row |i, r| { let v = V::copied(&i[..16]); made(r, || v.repeat(65536)) } => hip_repeat Rc;
    Mebibyte |i, r| { let l: Vec<_> = i.chunks(16).collect(); made(r, || <V as Bytes>::concat(&l)) } => hip_concat_slices Rc;
    Mebibyte |i, r| { let l: Vec<_> = i.chunks(16).collect(); made(r, || <V as Bytes>::concat_each(&l)) } => hip_concat_iter Rc;
    Mebibyte |i, r| { let l: Vec<_> = i.chunks(16).collect(); made(r, || <V as Bytes>::join(&l, b", ")) } => hip_join_slices Rc;
    Mebibyte |i, r| { let l: Vec<_> = i.chunks(16).collect(); made(r, || <V as Bytes>::join_each(&l, b", ")) } => hip_join_iter Rc;
    Row |i, r| compared(i, 10, r, |a: &V, b: &V| (a == b) as u64) => hip_eq10 Rc;
    Row |i, r| compared(i, 10, r, |a: &V, b: &V| (a.cmp(b) as i8 + 1) as u64) => hip_cmp10 Rc;
    Row |i, r| compared(i, 1024, r, |a: &V, b: &V| (a == b) as u64) => hip_eq1k Rc;
    Row |i, r| compared(i, 1024, r, |a: &V, b: &V| (a.cmp(b) as i8 + 1) as u64) => hip_cmp1k Rc;
    Paths |i, r| of_paths::<V>(i, r, |path| path.file_name().map(OsStr::len)) => hip_path_file_name Rc;
    Paths |i, r| of_paths::<V>(i, r, |path| path.extension().map(OsStr::len)) => hip_path_extension Rc;
    Paths |i, r| of_paths::<V>(i, r, |path| path.parent().map(|parent| parent.as_os_str().len())) => hip_path_parent Rc;
    Paths |i, r| of_paths::<V>(i, r, |path| Some(path.join("child.txt").as_os_str().len())) => hip_path_join Rc;
    Records |i, r| records(V::copied(i), r) => hip_records Rc;
    Records |i, r| records(V::lent(i), r) => hip_records_borrowed Rc;
    Words |i, r| numbered!(HashMap, V, i, r) => hip_intern_hash Rc;
    Words |i, r| numbered!(BTreeMap, V, i, r) => hip_intern_btree Rc;
}
