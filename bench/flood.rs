//! flood COUNT LENGTH FOLDER   writes FOLDER/flood.txt, COUNT different words of LENGTH letters and digits that share one hash under the
//!                             fixed seed of `FoldHasher`, and FOLDER/control.txt, as many random words of that length, 14 to 16.
//!
//! A step of that hash multiplies two numbers of 64 bits and XORs the halves of the product. If 2^64 + 1 divides the product, its halves
//! are equal, and the step gives 0 whatever else stands in the word. 2^64 + 1 has the factors `SMALL` and `GREAT`: a word's first eight
//! bytes make one number a multiple of `GREAT`, and its last eight the other one a multiple of `SMALL`.
use std::collections::{BTreeSet, HashMap};
use std::fs::File;
use std::io::{BufWriter, Result, Write};

const SMALL: u64 = 274_177;
const GREAT: u64 = 67_280_421_310_721;

/// The state that the hash begins with, and its multiplier.
const SEED: u64 = 0x243f_6a88_85a3_08d3;
const MULTIPLIER: u64 = 0x9e37_79b9_7f4a_7c15;

const LETTERS: &[u8; 62] = b"0123456789ABCDEFGHIJKLMNOPQRSTUVWXYZabcdefghijklmnopqrstuvwxyz";

/// Numbers from a fixed seed.
struct Numbers(u64);

impl Numbers {
    fn below(&mut self, most: usize) -> usize {
        self.0 ^= self.0 << 13;
        self.0 ^= self.0 >> 7;
        self.0 ^= self.0 << 17;
        (self.0 >> 33) as usize % most
    }

    fn word(&mut self, length: usize) -> Vec<u8> {
        (0..length).map(|_| LETTERS[self.below(LETTERS.len())]).collect()
    }
}

/// The first eight bytes of words that share one hash.
fn heads(length: usize) -> impl Iterator<Item = [u8; 8]> {
    let state = SEED.wrapping_add(length as u64);
    let multiples = (0..SMALL).map(move |k| (k.wrapping_mul(GREAT) ^ state).to_le_bytes());
    multiples.filter(|bytes| bytes.iter().all(u8::is_ascii_alphanumeric))
}

/// Last four bytes of words, by the remainder that they leave of `SMALL`.
fn ends(numbers: &mut Numbers) -> HashMap<u64, Vec<Vec<u8>>> {
    let mut ends: HashMap<u64, Vec<Vec<u8>>> = HashMap::new();
    for _ in 0..1_000_000 {
        let end = numbers.word(4);
        ends.entry(remainder(&end, 32)).or_default().push(end);
    }
    ends
}

/// The remainder by `SMALL` of four bytes of a word's end, as the bits from `shift` on of its last eight bytes.
fn remainder(bytes: &[u8], shift: u32) -> u64 {
    let number = u64::from(u32::from_le_bytes(bytes.try_into().unwrap())) << shift;
    (number ^ MULTIPLIER & 0xffff_ffff << shift) % SMALL
}

/// Words of one hash. Their last eight bytes begin with the head's where both overlap.
fn flood(count: usize, length: usize, numbers: &mut Numbers) -> Vec<Vec<u8>> {
    let heads: Vec<[u8; 8]> = heads(length).collect();
    let ends = ends(numbers);
    let mut words = BTreeSet::new();
    while words.len() < count {
        let mut word = heads[numbers.below(heads.len())].to_vec();
        word.extend(numbers.word(length - 12));
        let left = remainder(&word[length - 8..length - 4], 0);
        if let Some(ends) = ends.get(&((SMALL - left) % SMALL)) {
            word.extend(&ends[numbers.below(ends.len())]);
            words.insert(word);
        }
    }
    words.into_iter().collect()
}

fn write(path: String, words: &[Vec<u8>]) -> Result<()> {
    let mut file = BufWriter::new(File::create(path)?);
    for word in words {
        file.write_all(word)?;
        file.write_all(b" ")?;
    }
    file.flush()
}

fn main() -> Result<()> {
    let words: Vec<String> = std::env::args().skip(1).collect();
    let [count, length, folder] = words.as_slice() else {
        panic!("flood COUNT LENGTH FOLDER");
    };
    let (count, length) = (count.parse().unwrap(), length.parse().unwrap());
    let mut numbers = Numbers(0x1234_5678_9abc_def1);
    write(format!("{folder}/flood.txt"), &flood(count, length, &mut numbers))?;
    let control: Vec<Vec<u8>> = (0..count).map(|_| numbers.word(length)).collect();
    write(format!("{folder}/control.txt"), &control)
}
