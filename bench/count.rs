//! The words of standard input and how often each comes, the most frequent first: what `hip_tools count` does, over hipstr in Rust.
use hipstr::LocalHipStr as HipStr;
use std::cmp::Reverse;
use std::collections::HashMap;
use std::io::{BufWriter, Read, Write, stdin, stdout};

/// Each different text once, with numbers in the order in which they came.
#[derive(Default)]
struct Interner<'b> {
    numbers: HashMap<HipStr<'b>, u32>,
    texts: Vec<HipStr<'b>>,
}

impl<'b> Interner<'b> {
    fn intern(&mut self, text: HipStr<'b>) -> u32 {
        if let Some(number) = self.numbers.get(&text) {
            return *number;
        }
        let number = u32::try_from(self.texts.len()).unwrap();
        self.numbers.insert(text.clone(), number);
        self.texts.push(text);
        number
    }
}

fn main() {
    let mut bytes = Vec::new();
    stdin().lock().read_to_end(&mut bytes).unwrap();
    let text = HipStr::from_utf8(bytes.into()).unwrap();
    let mut interner = Interner::default();
    let mut counts: Vec<u64> = Vec::new();
    for word in text.split(|c: char| c.is_ascii() && !c.is_ascii_alphanumeric()) {
        if word.is_empty() {
            continue;
        }
        let number = interner.intern(word) as usize;
        match counts.get_mut(number) {
            Some(count) => *count += 1,
            None => counts.push(1),
        }
    }
    let mut words: Vec<(u32, u64)> = (0..).zip(counts.iter().copied()).collect();
    words.sort_by_key(|word| Reverse(word.1));
    let mut out = BufWriter::new(stdout().lock());
    for (number, count) in words {
        writeln!(out, "{count} {}", interner.texts[number as usize]).unwrap();
    }
}
