//! path_answers > crates/hip_names_tests/src/tests/answers.rt   writes the tables of paths, and of pairs of paths, with the answers of Rust's
//!                                                             `std::path` on Unix. `rt fmt` then breaks the long rows.
use std::ffi::OsStr;
use std::os::unix::ffi::OsStrExt;
use std::path::{Component, Path};

/// The rows of a table: a function costs the square of the rows that it names.
const ROWS: usize = 24;

/// Paths that no short string over `/`, `.` and `a` is.
const CHOSEN: &[&[u8]] = &[
    b"foo", b"foo/", b"/foo//bar", b"foo/.", b"a/b/../", b"a//b/./", b"foo.txt", b"/foo.txt/", b"foo.txt/.", b"foo.txt//..", b"foo.tar.gz",
    b"/a.b/foo.tar.gz//", b".bashrc", b"/home/u/.bashrc", b".bashrc.old", b"..rc", b"...rc", b"..rc.", b"foo.", b"foo..", b"foo..txt",
    b".foo.", b".foo..", b"a.b/c", b"a.b/..", b"a.b/.c", b"a.b/...", b"/a.b", b"./a.b", b"../a.b", b"a/.b.c", b"./.b", b"./.b/.", b". ", b".. ",
    b" .", b"a b.c d", b"a\\b.c", b"C:/a.b", b"C:\\a.b", b"~/a", b"-", b"\n/\n.\n", b"\x00", b"\x00/.\x00", b"\xFF", b"\xFF/.",
    b"/\xFF.\xFE", b".\xFF", b"..\xFF", b"a.\xFF/b\xC3.\xC3", b"\xC3\xA9.\xC3\xA9", b"/\xF0\x9F\x98\x80.txt", b"/usr/lib/", b"/usr//lib/./libc.so.6",
    b"a/b/c/d/e/f/g", b"/a/b/c/d/e/f/g/", b"a/../b/../c", b"../../..", b"../../../a", b"./../a", b"a/./././b", b"././././a", b"////a////b////",
    b"/./././", b"/../../", b"abcdefghijklmnopqrstuvw.x", b"0123456789012345678901.x/a", b"a/0123456789012345678901234567890123456789.text",
    b"/a/very/long/path/to/a/file/whose/name/is/long.too", b"a.tar/b.gz/c", b"a.tar/b.gz/.", b"a.tar/b.gz/..", b"a.tar/.gz/", b"a.b.c.d", b".a.b.c",
    b"..a.b.c", b"a...b", b"a....", b"....",
];

/// Pairs that hold what no pair of short strings over `/`, `.` and `a` does.
const PAIRS: &[(&[u8], &[u8])] = &[
    (b"/usr/lib", b"/usr"), (b"/usr/lib", b"/usr/"), (b"/usr/lib", b"/us"), (b"/usr//./lib/", b"/usr/lib"), (b"/usr/lib", b"usr"),
    (b"/usr/lib", b"lib"), (b"/usr/lib", b"ib"), (b"/usr/lib", b"usr/lib"), (b"/usr/lib", b"usr/lib/."), (b"/usr/lib", b"/usr/lib/c"),
    (b"/usr/lib", b"usr/lib/c"), (b"a/b/c", b"b"), (b"a/b/c", b"b/c"), (b"a/b/c", b"a/c"), (b"a/b/c", b"a/b/c"), (b"a/b/../c", b"a/c"),
    (b"a/b/../c", b"../c"), (b"a/b/../c", b"a/b/.."), (b"./a", b"a"), (b"./a", b"./a"), (b"b/./a", b"./a"), (b"a.txt", b"a"), (b"a.txt", b"txt"),
    (b"/a", b"/"), (b"/", b"//"), (b"\xFF/a", b"\xFF"), (b"\xFF/a", b"a"), (b"\xC3\xA9", b"\xC3"), (b"0123456789/0123456789", b"ab"),
    (b"0123456789/0123456789", b"abc"), (b"0123456789/0123456789/", b"/abc"),
];

/// The strings over `/`, `.` and `a` of so many bytes.
fn strings(len: usize) -> Vec<Vec<u8>> {
    if len == 0 {
        return vec![vec![]];
    }
    let longer = |front: Vec<u8>| b"/.a".map(|byte| [&front[..], &[byte]].concat());
    strings(len - 1).into_iter().flat_map(longer).collect()
}

fn up_to(len: usize) -> Vec<Vec<u8>> {
    (0..=len).flat_map(strings).collect()
}

fn path_of(bytes: &[u8]) -> &Path {
    Path::new(OsStr::from_bytes(bytes))
}

/// A component: `R` for the root, `C` for `.`, `P` for `..` or `N` and a name, with a `|` behind it.
fn of_component(component: Component<'_>) -> Vec<u8> {
    match component {
        Component::RootDir => b"R|".to_vec(),
        Component::CurDir => b"C|".to_vec(),
        Component::ParentDir => b"P|".to_vec(),
        Component::Normal(name) => [b"N", name.as_bytes(), b"|"].concat(),
        Component::Prefix(_) => unreachable!("a prefix on Unix"),
    }
}

/// A part: `=` and its bytes, or `-` where there is none, with a `|` behind it.
fn of_part(part: Option<&OsStr>) -> Vec<u8> {
    match part {
        Some(part) => [b"=", part.as_bytes(), b"|"].concat(),
        None => b"-|".to_vec(),
    }
}

fn of_test(test: bool) -> Vec<u8> {
    (if test { &b"y|"[..] } else { &b"n|"[..] }).to_vec()
}

/// What is told of a path: its file name, stem, extension and parent, whether it is absolute, and its components from the front and, behind
/// a `<`, from the back.
fn of_path(path: &Path) -> Vec<u8> {
    let front = path.components().flat_map(of_component).collect();
    let back = path.components().rev().flat_map(of_component).collect();
    let parent = path.parent().map(Path::as_os_str);
    let parts = [path.file_name(), path.file_stem(), path.extension(), parent].into_iter().flat_map(of_part).collect();
    [parts, of_test(path.is_absolute()), front, b"<".to_vec(), back].concat()
}

/// What is told of a pair: the one joined by the other, and whether it starts and ends with that.
fn of_pair(path: &Path, other: &Path) -> Vec<u8> {
    [of_part(Some(path.join(other).as_os_str())), of_test(path.starts_with(other)), of_test(path.ends_with(other))].concat()
}

/// A byte string as source.
fn literal(bytes: &[u8]) -> String {
    let escaped: String = bytes.iter().map(|byte| match byte {
        b'\n' => "\\n".to_string(),
        b'\\' | b'"' => format!("\\{}", *byte as char),
        b' '..=b'~' => (*byte as char).to_string(),
        _ => format!("\\x{byte:02X}"),
    }).collect();
    format!("b\"{escaped}\"")
}

/// Writes rows as tables of `ROWS`, each with a function of its own that gives it.
fn tables(kind: &str, rows: &[String]) {
    for (i, rows) in rows.chunks(ROWS).enumerate() {
        let (upper, lower) = (kind.to_uppercase(), kind.to_lowercase());
        println!("\nconst {upper}S_{i}: &[{kind}] = &[\n    {},\n];\n", rows.join(",\n    "));
        println!("pub(crate) fn {lower}s_{i}() -> &'static [{kind}] {{\n    {upper}S_{i}\n}}");
    }
}

fn main() {
    let paths = up_to(4).into_iter().chain(CHOSEN.iter().map(|path| path.to_vec()));
    let paths: Vec<String> = paths.map(|path| format!("({}, {})", literal(&path), literal(&of_path(path_of(&path))))).collect();
    let short = up_to(2);
    let pairs = short.iter().flat_map(|path| short.iter().map(move |other| (&path[..], &other[..]))).chain(PAIRS.iter().copied());
    let pairs: Vec<String> = pairs
        .map(|(path, other)| format!("({}, {}, {})", literal(path), literal(other), literal(&of_pair(path_of(path), path_of(other)))))
        .collect();
    println!("//! Paths, and pairs of paths, with the answers of Rust's `std::path`: scripts/path_answers.rs writes this file, and says how an answer");
    println!("//! is written. Each table has a function that gives it, so that those who go through it know nothing of its rows.");
    println!("\n/// A path, and what is told of it.\npub(crate) type Path = (&'static [u8], &'static [u8]);");
    println!("\n/// Two paths, and what is told of them.\npub(crate) type Pair = (&'static [u8], &'static [u8], &'static [u8]);");
    tables("Path", &paths);
    tables("Pair", &pairs);
    eprintln!("path_answers: {} paths, {} pairs", paths.len(), pairs.len());
}
