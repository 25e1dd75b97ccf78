// Reading against plain Rust: the same rules, the same input, one run. See docs/SPEED.md.
use std::collections::HashMap;
use std::time::Instant;

#[path = "calls.rs"]
mod calls;
#[path = "network.rs"]
mod network;
use calls::vendorfinch_read;
use network::{network, network_file, ring, ring_file, spokes, spokes_file};

// What a call lends.
struct Rooms {
    text: Vec<u8>,
    marks: Vec<u8>,
    rows: Vec<u64>,
    cells: Vec<i64>,
    points: Vec<i64>,
    index: Vec<u64>,
}

impl Rooms {
    fn new(size: usize, objects: usize, cells: usize, points: usize) -> Rooms {
        Rooms {
            text: vec![0xee; size],
            marks: vec![0xee; 8],
            rows: vec![7; objects],
            cells: vec![7; cells],
            points: vec![7; 4 * points],
            index: vec![7; 3 * objects],
        }
    }
}

fn proved(model: &[u8], file: &[u8], seed: u64, r: &mut Rooms) -> [u64; 4] {
    let mut answer = [0u64; 4];
    unsafe {
        vendorfinch_read(
            model.as_ptr(), model.len(), file.as_ptr(), file.len(), r.text.as_mut_ptr(), r.text.len(),
            r.marks.as_mut_ptr(), r.marks.len(), r.rows.as_mut_ptr(), r.rows.len(), r.cells.as_mut_ptr(), r.cells.len(),
            r.points.as_mut_ptr(), r.points.len(), r.index.as_mut_ptr(), r.index.len(), seed, answer.as_mut_ptr(), 4,
        )
    };
    answer
}

// Identifications that stand in one chain of so many heads under seed 0, whose factor is the library's: the last byte,
// no mark, is chosen for that.
fn colliding(n: usize, heads: u64) -> Vec<String> {
    let k = 663608941 + 1;
    let fold = |h: u64, b: u64| (h * k + b) / 2147483648 + (h * k + b) % 2147483648;
    let (mut found, mut i) = (Vec::new(), 0u64);
    while found.len() < n {
        let name = format!("{i:x}");
        let h = name.bytes().fold(1, |h, b| fold(h, b as u64));
        let b = 0x21 + (heads - fold(h, 0x21) % heads) % heads;
        if b <= 0x7e && b != 0x5c && fold(h, b) % heads == 0 {
            found.push(format!("{name}{}", b as u8 as char));
        }
        i += 1;
    }
    found
}

// ## Plain Rust, for the network's two tables

fn unfold(file: &[u8]) -> Option<Vec<u8>> {
    let (mut text, mut at, mut continues) = (Vec::with_capacity(file.len()), 0, false);
    while at < file.len() {
        let n = file[at..].iter().position(|&b| b == b'\n')?;
        let mut l = &file[at..at + n];
        at += n + 1;
        l = l.strip_suffix(b"\r").unwrap_or(l);
        if !l.iter().all(|&b| matches!(b, 0x09 | 0x20..=0x7e | 0xa0..=0xff)) {
            return None;
        }
        if continues {
            l = l.strip_prefix(b"CONT ")?;
        }
        continues = l.last() == Some(&b'\\');
        text.extend(if continues { &l[..l.len() - 1] } else { l });
        if !continues {
            text.push(b'\n');
        }
    }
    if continues { None } else { Some(text) }
}

fn number(s: &[u8], decimals: usize, least: i64, greatest: i64) -> Option<i64> {
    let (negative, d) = match s.first()? {
        b'-' => (true, &s[1..]),
        b'+' => (false, &s[1..]),
        _ => (false, s),
    };
    let point = d.len().checked_sub(decimals + 1)?;
    if point == 0 || d.len() > 19 || d[point] != b'.' {
        return None;
    }
    let mut v = 0i64;
    for (i, &b) in d.iter().enumerate() {
        if i != point {
            if !b.is_ascii_digit() {
                return None;
            }
            v = v * 10 + (b - b'0') as i64;
        }
    }
    let v = if negative { -v } else { v };
    if v < least || greatest < v { None } else { Some(v) }
}

fn is_text(s: &[u8]) -> bool {
    s.iter().all(|&b| matches!(b, 0x21..=0x7e | 0xc0..=0xff) && b != 0xd7 && b != 0xf7)
}

#[derive(Default)]
struct Plain {
    text: Vec<u8>,
    rows: Vec<u64>,
    cells: Vec<i64>,
    points: Vec<i64>,
}

fn coordinate(east: &[u8], north: &[u8]) -> Option<(i64, i64)> {
    Some((number(east, 2, 48_000_000, 85_000_000)?, number(north, 2, 7_000_000, 30_000_000)?))
}

// Line by line, with the library's own split and hash map.
#[inline(never)]
fn plain(file: &[u8]) -> Option<Plain> {
    let text = unfold(file)?;
    let (mut rows, mut cells, mut points) = (Vec::new(), Vec::<i64>::new(), Vec::new());
    let mut ids: HashMap<&[u8], (i64, i64)> = HashMap::new();
    let mut references: Vec<(usize, &[u8])> = Vec::new();
    let start = |s: &[u8]| (s.as_ptr() as usize - text.as_ptr() as usize) as i64;
    let mut lines = text
        .split(|&b| b == b'\n')
        .map(|l| l.split(|&b| b == b' ' || b == b'\t').filter(|f| !f.is_empty()).collect::<Vec<_>>());
    if lines.next()? != [b"SCNT"] {
        return None;
    }
    while lines.next()? != [b"////"] {}
    if lines.next()? != [b"MTID".as_slice(), b"Network"]
        || lines.next()? != [b"MODL".as_slice(), b"Water"]
        || lines.next()? != [b"TOPI".as_slice(), b"Pipes"]
    {
        return None;
    }
    for (table, name) in [b"Node", b"Pipe"].into_iter().enumerate() {
        if lines.next()? != [b"TABL".as_slice(), name] {
            return None;
        }
        loop {
            let l = lines.next()?;
            if l == [b"ETAB"] {
                break;
            }
            if l.first()? != b"OBJE" || l.len() != 5 - table || !is_text(l[1]) || l[1] == b"@" || l[1] == b"@@" {
                return None;
            }
            if ids.insert(l[1], (table as i64, rows.len() as i64)).is_some() {
                return None;
            }
            rows.push(cells.len() as u64);
            cells.extend([table as i64, start(l[1]), l[1].len() as i64]);
            if table == 0 {
                if !is_text(l[2]) || l[2].len() > 20 {
                    return None;
                }
                let (east, north) = coordinate(l[3], l[4])?;
                cells.extend([1 + l[2].len() as i64, start(l[2]), 1, east, 1, north]);
            } else {
                references.push((cells.len(), l[2]));
                let first = (points.len() / 4) as i64;
                let diameter = number(l[3], 1, 0, 99_999)?;
                let mut kind = 0;
                loop {
                    let p = lines.next()?;
                    if p == [b"ELIN"] && kind == 1 {
                        break;
                    }
                    if p.len() != 3 || p[0] != if kind == 0 { b"STPT" } else { b"LIPT" } {
                        return None;
                    }
                    let (east, north) = coordinate(p[1], p[2])?;
                    points.extend([kind, east, north, 0]);
                    kind = 1;
                }
                cells.extend([1, 0, 1, diameter, 1 + (points.len() / 4) as i64 - first, first]);
            }
        }
    }
    if lines.next()? != [b"ETOP"] || lines.next()? != [b"EMOD"] || lines.next()? != [b"ENDE"] {
        return None;
    }
    for (cell, id) in references {
        match ids.get(id) {
            Some(&(0, object)) => cells[cell + 1] = object,
            _ => return None,
        }
    }
    drop(ids);
    Some(Plain { text, rows, cells, points })
}

// ## The runs

fn milliseconds<R>(f: impl FnOnce() -> R) -> (f64, R) {
    let start = Instant::now();
    let r = f();
    (start.elapsed().as_secs_f64() * 1e3, r)
}

fn compare(name: &str, objects: usize, step: usize, turns: usize) -> f64 {
    let (model, file) = (network(), network_file(objects, step));
    let mut rooms = Rooms::new(file.len(), 2 * objects, 18 * objects, 3 * objects);
    let (mut ours, mut theirs) = (f64::MAX, f64::MAX);
    for _ in 0..turns {
        let (t, answer) = milliseconds(|| proved(&model, &file, 20261115, &mut rooms));
        assert_eq!(answer, [0, 2 * objects as u64, 18 * objects as u64, 3 * objects as u64]);
        let (s, table) = milliseconds(|| plain(&file).unwrap());
        assert!(table.rows == rooms.rows && table.cells == rooms.cells && table.points == rooms.points);
        assert!(table.text == rooms.text[..table.text.len()]);
        (ours, theirs) = (ours.min(t), theirs.min(s));
    }
    println!(
        "{name}: {} bytes, {} objects: proved {ours:.1} ms; plain Rust {theirs:.1} ms, ratio {:.2}",
        file.len(), 2 * objects, ours / theirs,
    );
    ours
}

// Objects numbered behind a prefix, with so many words of index for each: the least time of so many turns, in
// nanoseconds for each byte.
fn numbered(objects: usize, prefix: &str, words: usize, turns: usize) -> f64 {
    let (model, file) = (spokes(), spokes_file(objects, prefix));
    let mut rooms = Rooms::new(file.len(), objects, 5 * objects, 0);
    rooms.index.truncate(words * objects);
    let mut least = f64::MAX;
    for _ in 0..turns {
        let (t, answer) = milliseconds(|| proved(&model, &file, 20261115, &mut rooms));
        assert_eq!(answer, [0, objects as u64, 5 * objects as u64, 0]);
        least = least.min(t);
    }
    println!("  prefix of {} bytes: {} bytes, {least:.1} ms", prefix.len(), file.len());
    least * 1e6 / file.len() as f64
}

// A prefix of 40 bytes against none.
fn compare_prefix(objects: usize, words: usize, turns: usize) {
    let (long, short) = (numbered(objects, &"D".repeat(40), words, turns), numbered(objects, "", words, turns));
    println!("  {long:.2} ns a byte against {short:.2}, ratio {:.2}", long / short);
}

fn main() {
    for (which, step) in [("a pipe refers to the node where its line begins", 1), ("references scattered", 31)] {
        println!("{which}:");
        let one = compare("1 MiB", 6_760, step, 40);
        let four = compare("4 MiB", 26_500, step, 20);
        let sixteen = compare("16 MiB", 103_600, step, 10);
        println!("growth from 1 to 4 MiB {:.1}, to 16 MiB {:.1}", four / one, sixteen / one);
    }
    println!("200,000 numbered objects:");
    compare_prefix(200_000, 3, 10);
    println!("4,000 numbered objects, no index:");
    compare_prefix(4_000, 0, 5);
    let (model, file) = (ring(), ring_file(700_000, |i| format!("{i:x}")));
    let mut rooms = Rooms::new(file.len(), 700_000, 3_500_000, 0);
    let (t, answer) = milliseconds(|| proved(&model, &file, 20261115, &mut rooms));
    println!("700,000 objects that refer to each other: {} bytes, answer {answer:?}, {t:.0} ms", file.len());
    let names = colliding(40_000, 80_000);
    let file = ring_file(40_000, |i| names[i].clone());
    for seed in [0, 20261115] {
        let mut rooms = Rooms::new(file.len(), 40_000, 200_000, 0);
        let (t, answer) = milliseconds(|| proved(&model, &file, seed, &mut rooms));
        println!(
            "40,000 identifications of one chain under seed 0, read under seed {seed}: answer {answer:?}, {t:.0} ms"
        );
    }
}
