//! Measures the walks of `hip_match_bench` over the ranges of a text beside those of Rust's `str`.
//!
//! Each line of the table is one walk over a text of about 1 MiB. Both sides are called in turn, in one thread, and its processor time
//! is taken. A ratio is taken in each turn, and the line has the median of the ratios with the least and the greatest. A call with no
//! rounds, which only tests that the text is UTF-8, is taken off.
use std::hint::black_box;
use std::ops::RangeInclusive;

/// How often the sides of a line are called in turn, and how long one call is to take, in nanoseconds.
const TURNS: usize = 15;
const NANOSECONDS: f64 = 10e6;

unsafe extern "C" {
    fn hip_walk(walk: u32, text: *const u8, len: usize, rounds: u64) -> u64;
    fn hip_walk_text(walk: u32, text: *const u8, len: usize, pattern: *const u8, pattern_len: usize, rounds: u64) -> u64;
    fn hip_walk_char(walk: u32, text: *const u8, len: usize, pattern: *const u8, pattern_len: usize, rounds: u64) -> u64;
    fn hip_walk_set(walk: u32, text: *const u8, len: usize, pattern: *const u8, pattern_len: usize, rounds: u64) -> u64;
    fn clock_gettime(clock: i32, time: *mut [i64; 2]) -> i32;
}

/// Linux's clock of the thread's processor time.
const THREAD_TIME: i32 = 3;

fn now() -> f64 {
    let mut time = [0; 2];
    // SAFETY: a `timespec` is two numbers of 64 bits.
    unsafe { clock_gettime(THREAD_TIME, &mut time) };
    time[0] as f64 * 1e9 + time[1] as f64
}

/// The kind of a walk.
#[derive(Clone, Copy)]
enum Walk {
    Split,
    RSplit,
    SplitInclusive,
    Matches,
    TrimStart,
    TrimEnd,
    Lines,
    Words,
    AsciiWords,
    AsciiWordsBack,
}

/// The pattern of a walk.
#[derive(Clone, Copy)]
enum By {
    Text(&'static str),
    Char(char),
    Set([char; 2]),
    Nothing,
}

fn drained<'t>(pieces: impl Iterator<Item = &'t str>) -> u64 {
    let mut sum = 0u64;
    for piece in pieces {
        sum = sum.wrapping_add(piece.len() as u64 + 1);
    }
    sum
}

/// One walk by Rust's `str`. It has no trim at the end by an array, so that one goes by a closure.
fn theirs(walk: Walk, text: &str, by: By) -> u64 {
    match (walk, by) {
        (Walk::Split, By::Text(p)) => drained(text.split(p)),
        (Walk::Split, By::Char(p)) => drained(text.split(p)),
        (Walk::Split, By::Set(p)) => drained(text.split(&p)),
        (Walk::RSplit, By::Text(p)) => drained(text.rsplit(p)),
        (Walk::RSplit, By::Char(p)) => drained(text.rsplit(p)),
        (Walk::RSplit, By::Set(p)) => drained(text.rsplit(p.as_slice())),
        (Walk::SplitInclusive, By::Char(p)) => drained(text.split_inclusive(p)),
        (Walk::Matches, By::Text(p)) => drained(text.matches(p)),
        (Walk::Matches, By::Char(p)) => drained(text.matches(p)),
        (Walk::TrimStart, By::Set(p)) => text.trim_start_matches(p.as_slice()).len() as u64 + 1,
        (Walk::TrimEnd, By::Char(p)) => text.trim_end_matches(p).len() as u64 + 1,
        (Walk::TrimEnd, By::Set(p)) => text.trim_end_matches(|c| c == p[0] || c == p[1]).len() as u64 + 1,
        (Walk::Lines, By::Nothing) => drained(text.lines()),
        (Walk::Words, By::Nothing) => drained(text.split_whitespace()),
        (Walk::AsciiWords, By::Nothing) => drained(text.split_ascii_whitespace()),
        (Walk::AsciiWordsBack, By::Nothing) => drained(text.split_ascii_whitespace().rev()),
        _ => unreachable!(),
    }
}

fn ours(walk: Walk, text: &str, by: By, rounds: u64) -> u64 {
    let (at, len) = (text.as_ptr(), text.len());
    let mut room = String::new();
    let walk = walk as u32;
    // SAFETY: the library takes a text as a pointer and a length, and only reads it.
    unsafe {
        match by {
            By::Text(p) => hip_walk_text(walk, at, len, p.as_ptr(), p.len(), rounds),
            By::Char(p) => {
                room.push(p);
                hip_walk_char(walk, at, len, room.as_ptr(), room.len(), rounds)
            }
            By::Set(p) => {
                room.extend(p);
                hip_walk_set(walk, at, len, room.as_ptr(), room.len(), rounds)
            }
            By::Nothing => hip_walk(walk, at, len, rounds),
        }
    }
}

/// The nanoseconds of a call, and its sum.
fn time(call: impl Fn() -> u64) -> (f64, u64) {
    let start = now();
    let sum = black_box(call());
    (now() - start, sum)
}

fn their_rounds(walk: Walk, text: &str, by: By, rounds: u64) -> u64 {
    (0..rounds).fold(0, |sum: u64, _| sum.wrapping_add(theirs(walk, black_box(text), by)))
}

/// Numbers from a fixed seed.
struct Numbers(u64);

impl Numbers {
    fn within(&mut self, range: &RangeInclusive<usize>) -> usize {
        self.0 ^= self.0 << 13;
        self.0 ^= self.0 >> 7;
        self.0 ^= self.0 << 17;
        range.start() + (self.0 >> 32) as usize % (range.end() + 1 - range.start())
    }
}

/// Words of letters of an alphabet, of so many letters each, parted by one of the parts.
fn words(letters: &str, count: RangeInclusive<usize>, parts: &[&str]) -> String {
    let letters: Vec<char> = letters.chars().collect();
    let mut numbers = Numbers(0x9E37_79B9_7F4A_7C15);
    let mut text = String::new();
    while text.len() < 1 << 20 {
        for _ in 0..numbers.within(&count) {
            text.push(letters[numbers.within(&(0..=letters.len() - 1))]);
        }
        text.push_str(parts[numbers.within(&(0..=parts.len() - 1))]);
    }
    text
}

/// A text that is written again and again.
fn again(unit: &str) -> String {
    unit.repeat((1 << 20) / unit.len() + 1)
}

/// English prose: sentences of its most frequent words.
fn prose() -> String {
    let common: Vec<&str> = "the of and to in a is that for it as was with be by on not he his but at are this have from they which one you were all her she there would their we him been has when who will no more if out so up said what its about than into them can only other time new some could these two may first then do any like my now over such our man me even most made after also did many".split(' ').collect();
    let mut numbers = Numbers(0x9E37_79B9_7F4A_7C15);
    let mut text = String::new();
    while text.len() < 1 << 20 {
        for _ in 0..numbers.within(&(4..=20)) {
            text.push_str(common[numbers.within(&(0..=common.len() - 1)).min(numbers.within(&(0..=common.len() - 1)))]);
            text.push_str(if numbers.within(&(0..=9)) == 0 { ", " } else { " " });
        }
        text.push_str("and so it was. ");
    }
    text
}

/// A needle of so many letters that a run of its first letter nearly matches everywhere.
fn near_miss(len: usize) -> &'static str {
    Box::leak(("a".repeat(len - 1) + "b").into_boxed_str())
}

fn median(mut numbers: Vec<f64>) -> (f64, f64, f64) {
    numbers.sort_by(f64::total_cmp);
    (numbers[numbers.len() / 2], numbers[0], numbers[numbers.len() - 1])
}

/// Measures one line. It ends the process where the sums differ.
fn measure(name: &str, walk: Walk, text: &str, by: By) {
    let (our_sum, their_sum) = (ours(walk, text, by, 1), theirs(walk, text, by));
    if our_sum != their_sum {
        eprintln!("{name}: ours gives {our_sum}, Rust's str {their_sum}");
        std::process::exit(1);
    }
    let once = time(|| their_rounds(walk, text, by, 2)).0 / 2.0;
    let rounds = ((NANOSECONDS / once) as u64).max(2);
    let tested = (0..3).map(|_| time(|| ours(walk, text, by, 0)).0).fold(f64::MAX, f64::min);
    let (mut our_times, mut their_times, mut ratios) = (Vec::new(), Vec::new(), Vec::new());
    for _ in 0..TURNS {
        let our_time = (time(|| ours(walk, text, by, rounds)).0 - tested) / rounds as f64;
        let their_time = time(|| their_rounds(walk, text, by, rounds)).0 / rounds as f64;
        our_times.push(our_time / 1e3);
        their_times.push(their_time / 1e3);
        ratios.push(our_time / their_time);
    }
    let (ratio, least, greatest) = median(ratios);
    println!("| {name} | {ratio:.2} | {least:.2}–{greatest:.2} | {:.0} µs | {:.0} µs |", median(our_times).0, median(their_times).0);
}

const ASCII: &str = "abcdefghijklmnopqrstuvwxyz";
const RUSSIAN: &str = "абвгдежзийклмнопрстуфхцчшщъыьэюя";
const JAPANESE: &str = "あいうえおかきくけこ日本語文字";
const RULE: &str = "------------------------------------------";
const FRENCH: &str = "abcdefghijklmnopqrstuvwxyzéàè";
const GREEK: &str = "αβγδεζηθικλμνξοπρστυφχψω";
const KOREAN: &str = "가나다라마바사아자차카타파하";
const EMOJI: &str = "😀🐀🐈🐕🌍🌊";

fn main() {
    let wanted: Vec<String> = std::env::args().skip(1).collect();
    let mut rows: Vec<(String, Walk, String, By)> = [
        ("split_ascii_whitespace, words of 5", Walk::AsciiWords, words(ASCII, 5..=5, &[" "]), By::Nothing),
        ("split_ascii_whitespace, words of 1 to 8", Walk::AsciiWords, words(ASCII, 1..=8, &[" "]), By::Nothing),
        ("split_ascii_whitespace, words of 30", Walk::AsciiWords, words(ASCII, 30..=30, &[" "]), By::Nothing),
        ("split_ascii_whitespace, words of 1 to 55", Walk::AsciiWords, words(ASCII, 1..=55, &[" ", "\n", "\t"]), By::Nothing),
        ("split_ascii_whitespace, Russian", Walk::AsciiWords, words(RUSSIAN, 1..=12, &[" "]), By::Nothing),
        ("split_ascii_whitespace, Japanese", Walk::AsciiWords, words(JAPANESE, 1..=12, &[" "]), By::Nothing),
        ("split_ascii_whitespace, words of 1 to 8, from the back", Walk::AsciiWordsBack, words(ASCII, 1..=8, &[" "]), By::Nothing),
        ("split_whitespace, words of 1 to 55", Walk::Words, words(ASCII, 1..=55, &[" ", "\n", "\t"]), By::Nothing),
        ("split_whitespace, Russian", Walk::Words, words(RUSSIAN, 1..=12, &[" "]), By::Nothing),
        ("split_whitespace, words of 1 to 8", Walk::Words, words(ASCII, 1..=8, &[" "]), By::Nothing),
        ("split_whitespace, Japanese", Walk::Words, words(JAPANESE, 1..=12, &[" "]), By::Nothing),
        ("lines, of 1 to 55", Walk::Lines, words(ASCII, 1..=55, &["\n", "\r\n"]), By::Nothing),
        ("split(','), words of 1 to 55", Walk::Split, words(ASCII, 1..=55, &[","]), By::Char(',')),
        ("rsplit(','), words of 1 to 55", Walk::RSplit, words(ASCII, 1..=55, &[","]), By::Char(',')),
        ("split(','), words of 1 to 12", Walk::Split, words(ASCII, 1..=12, &[","]), By::Char(',')),
        ("rsplit(','), words of 1 to 12", Walk::RSplit, words(ASCII, 1..=12, &[","]), By::Char(',')),
        ("split_inclusive(','), words of 1 to 55", Walk::SplitInclusive, words(ASCII, 1..=55, &[","]), By::Char(',')),
        ("split(\",\"), words of 1 to 55", Walk::Split, words(ASCII, 1..=55, &[","]), By::Text(",")),
        ("split(\"ab\"), where it parts words", Walk::Split, words("cdefghij", 1..=55, &["ab"]), By::Text("ab")),
        ("rsplit(\"ab\"), where it parts words", Walk::RSplit, words("cdefghij", 1..=55, &["ab"]), By::Text("ab")),
        ("matches(\"ab\"), where it is rare", Walk::Matches, words(ASCII, 1..=55, &[","]), By::Text("ab")),
        ("split(\"ab\") over cbab", Walk::Split, words("c", 0..=0, &["cbab"]), By::Text("ab")),
        ("rsplit(\"ab\") over cbab", Walk::RSplit, words("c", 0..=0, &["cbab"]), By::Text("ab")),
        ("split(\" - \"), fields of 8", Walk::Split, words(ASCII, 8..=8, &[" - "]), By::Text(" - ")),
        ("rsplit(\" - \"), fields of 8", Walk::RSplit, words(ASCII, 8..=8, &[" - "]), By::Text(" - ")),
        ("split(\" - \"), fields of 4", Walk::Split, words(ASCII, 4..=4, &[" - "]), By::Text(" - ")),
        ("split(\" - \"), fields of 128", Walk::Split, words(ASCII, 128..=128, &[" - "]), By::Text(" - ")),
        ("split(\" -> \"), fields of 4", Walk::Split, words(ASCII, 4..=4, &[" -> "]), By::Text(" -> ")),
        ("split(\" -> \"), fields of 8", Walk::Split, words(ASCII, 8..=8, &[" -> "]), By::Text(" -> ")),
        ("split(\" -> \"), fields of 16", Walk::Split, words(ASCII, 16..=16, &[" -> "]), By::Text(" -> ")),
        ("rsplit(\" -> \"), fields of 8", Walk::RSplit, words(ASCII, 8..=8, &[" -> "]), By::Text(" -> ")),
        ("split(\", \"), fields of 64", Walk::Split, words(ASCII, 64..=64, &[", "]), By::Text(", ")),
        ("split(\"the \"), words of 1 to 55", Walk::Split, words(ASCII, 1..=55, &[" ", " the "]), By::Text("the ")),
        ("split(RULE), fields of 128", Walk::Split, words(ASCII, 128..=128, &[RULE]), By::Text(RULE)),
        ("rsplit(RULE), fields of 128", Walk::RSplit, words(ASCII, 128..=128, &[RULE]), By::Text(RULE)),
        ("split(\"aaa\") over a", Walk::Split, words("a", 1..=1, &[""]), By::Text("aaa")),
        ("rsplit(\"aaa\") over a", Walk::RSplit, words("a", 1..=1, &[""]), By::Text("aaa")),
        ("matches(\"aaa\") over a", Walk::Matches, words("a", 1..=1, &[""]), By::Text("aaa")),
        ("split(\"needle\") over itself", Walk::Split, words("a", 0..=0, &["needle"]), By::Text("needle")),
        ("rsplit(\"needle\") over itself", Walk::RSplit, words("a", 0..=0, &["needle"]), By::Text("needle")),
        ("split(&[',', ';']), words of 1 to 55", Walk::Split, words(ASCII, 1..=55, &[",", ";"]), By::Set([',', ';'])),
        ("split(&[',', ' ']), words of 1 to 6", Walk::Split, words(ASCII, 1..=6, &[",", " "]), By::Set([',', ' '])),
        ("split(&[',', ' ']), words of 1 to 12", Walk::Split, words(ASCII, 1..=12, &[",", " "]), By::Set([',', ' '])),
        ("split(&[',', ' ']), words of 2 and 3", Walk::Split, words(ASCII, 2..=3, &[",", " "]), By::Set([',', ' '])),
        ("split(&[',', ' ']), words of 5", Walk::Split, words(ASCII, 5..=5, &[",", " "]), By::Set([',', ' '])),
        ("rsplit(&[',', ' ']), words of 1 to 6", Walk::RSplit, words(ASCII, 1..=6, &[",", " "]), By::Set([',', ' '])),
        ("rsplit(&[',', ' ']), words of 2 and 3", Walk::RSplit, words(ASCII, 2..=3, &[",", " "]), By::Set([',', ' '])),
        ("rsplit(&[',', ' ']), words of 5", Walk::RSplit, words(ASCII, 5..=5, &[",", " "]), By::Set([',', ' '])),
        ("split(&[',', ' ']), words of 8", Walk::Split, words(ASCII, 8..=8, &[",", " "]), By::Set([',', ' '])),
        ("split(&[',', ' ']), Russian", Walk::Split, words(RUSSIAN, 1..=12, &[" "]), By::Set([',', ' '])),
        ("rsplit(&[',', ' ']), Russian", Walk::RSplit, words(RUSSIAN, 1..=12, &[" "]), By::Set([',', ' '])),
        ("rsplit(&[',', ' ']), Japanese", Walk::RSplit, words(JAPANESE, 1..=12, &[" "]), By::Set([',', ' '])),
        ("split('é'), French", Walk::Split, words(FRENCH, 1..=6, &["é"]), By::Char('é')),
        ("split('é'), Russian", Walk::Split, words(RUSSIAN, 1..=6, &["é"]), By::Char('é')),
        ("trim_end_matches('é')", Walk::TrimEnd, words("é", 1..=1, &[""]), By::Char('é')),
        ("trim_end_matches('я')", Walk::TrimEnd, words("я", 1..=1, &[""]), By::Char('я')),
        ("trim_end_matches('語')", Walk::TrimEnd, words("語", 1..=1, &[""]), By::Char('語')),
        ("trim_end_matches(&['я', 'ю'])", Walk::TrimEnd, words("яю", 1..=1, &[""]), By::Set(['я', 'ю'])),
        ("trim_end_matches(&['日', '本'])", Walk::TrimEnd, words("日本", 1..=1, &[""]), By::Set(['日', '本'])),
        ("trim_start_matches(&['я', 'ю'])", Walk::TrimStart, words("яю", 1..=1, &[""]), By::Set(['я', 'ю'])),
        ("split_whitespace, blanks alone", Walk::Words, again(" "), By::Nothing),
        ("split_whitespace, words of 1", Walk::Words, words(ASCII, 1..=1, &[" "]), By::Nothing),
        ("matches('é'), French", Walk::Matches, words(FRENCH, 1..=6, &["é"]), By::Char('é')),
        ("split(RULE) over dashes", Walk::Split, again("-"), By::Text(RULE)),
    ]
    .map(|(name, walk, text, by)| (name.to_string(), walk, text, by))
    .into();
    // Each text is taken apart from both ends.
    let characters = [
        ("Japanese sentences", words(JAPANESE, 5..=30, &["。"]), '。'),
        ("Japanese clauses", words(JAPANESE, 2..=12, &["、", "、", "。"]), '、'),
        ("Japanese words", words(JAPANESE, 1..=8, &["\u{3000}"]), '\u{3000}'),
        ("a character and U+3000 by turns", again("日\u{3000}"), '\u{3000}'),
        ("U+3000 alone", again("\u{3000}"), '\u{3000}'),
        ("Korean", words(KOREAN, 1..=6, &[" "]), '라'),
        ("Korean, each second", again("가라"), '라'),
        ("Korean, each", again("가"), '가'),
        ("emoji", words(EMOJI, 1..=6, &[""]), '😀'),
        ("emoji, each second", again("🐀😀"), '😀'),
        ("emoji, each", again("😀"), '😀'),
        ("Greek", words(GREEK, 1..=10, &[" "]), 'α'),
        ("Russian", words(RUSSIAN, 1..=12, &[" "]), 'о'),
        ("French, rare", words(ASCII, 20..=60, &["é"]), 'é'),
        ("a letter and é by turns", words(ASCII, 1..=1, &["é"]), 'é'),
        ("é alone", again("é"), 'é'),
        ("none in 1 MiB", again("日本語"), '。'),
        ("commas alone", again(","), ','),
    ];
    for (name, text, by) in characters {
        rows.push((format!("split({by:?}), {name}"), Walk::Split, text.clone(), By::Char(by)));
        rows.push((format!("rsplit({by:?}), {name}"), Walk::RSplit, text, By::Char(by)));
    }
    let texts = [
        ("over ab", again("ab"), "ab"),
        ("over acab", again("acab"), "ab"),
        ("over bbab", again("bbab"), "ab"),
        ("over abcabd", again("abcabd"), "abc"),
        ("over xxcabc", again("xxcabc"), "abc"),
        ("over aa", again("a"), "aa"),
        ("none in 1 MiB", again("abcdefgh"), "xy"),
        ("gaps of five", words("vwxyz", 5..=5, &["abc"]), "abc"),
        ("gaps of five", words("vwxyz", 5..=5, &["abcd"]), "abcd"),
        ("gaps of five", words("vwxyz", 5..=5, &["abcde"]), "abcde"),
        ("gaps of five", words("vwxyz", 5..=5, &["abcdefgh"]), "abcdefgh"),
        ("prose", prose(), "the "),
        ("prose", prose(), ", "),
        ("prose", prose(), "and "),
        ("prose", prose(), "would"),
        ("prose", prose(), "and so it was. "),
        ("nearly everywhere", again("a"), near_miss(5)),
        ("nearly everywhere", again("a"), near_miss(16)),
        ("nearly everywhere, 100", again("a"), near_miss(100)),
        ("nearly everywhere, 1,000", again("a"), near_miss(1000)),
    ];
    for (name, text, by) in texts {
        let shown = &by[..by.len().min(16)];
        rows.push((format!("split({shown:?}), {name}"), Walk::Split, text.clone(), By::Text(by)));
        rows.push((format!("rsplit({shown:?}), {name}"), Walk::RSplit, text, By::Text(by)));
    }
    for part in [", ", " - ", " -> "] {
        for count in [1, 2, 4, 8, 16, 32, 128] {
            let text = words(ASCII, count..=count, &[part]);
            rows.push((format!("split({part:?}), each field of {count}"), Walk::Split, text.clone(), By::Text(part)));
            rows.push((format!("rsplit({part:?}), each field of {count}"), Walk::RSplit, text, By::Text(part)));
        }
    }
    println!("| Walk | ours / Rust | turns | ours | Rust |\n|---|---|---|---|---|");
    for (name, walk, text, by) in rows {
        if wanted.is_empty() || wanted.iter().any(|word| name.contains(word.as_str())) {
            measure(&name, walk, &text, by);
        }
    }
}
