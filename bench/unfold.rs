// Unfolding against plain Rust: the same rules, the same input, one run. See docs/SPEED.md.
use std::time::Instant;

extern "C" {
    fn vendorfinch_unfold(
        model: *const u8,
        model_size: usize,
        file: *const u8,
        size: usize,
        text: *mut u8,
        room: usize,
    ) -> u64;
}

// The sample's model, whose mark is \.
const MODEL: &[u8] = include_bytes!("../sample/model.bin");

// Proved, the check of the model included: the text's length, or the number of the refusal.
fn proved(file: &[u8], mark: u8, text: &mut [u8]) -> u64 {
    assert_eq!(mark, b'\\');
    let answer = unsafe {
        vendorfinch_unfold(MODEL.as_ptr(), MODEL.len(), file.as_ptr(), file.len(), text.as_mut_ptr(), text.len())
    };
    if answer % 256 == 0 { answer / 256 } else { answer % 256 }
}

fn permitted(b: u8) -> bool {
    matches!(b, 0x09 | 0x20..=0x7e | 0xa0..=0xff)
}

fn refuse(text: &mut [u8], number: u64) -> u64 {
    text.fill(0);
    number
}

// Line by line, with the library's own search, comparison and copy.
#[inline(never)]
fn by_lines(file: &[u8], mark: u8, text: &mut [u8]) -> u64 {
    let (mut at, mut used, mut continues, mut full) = (0, 0, false, false);
    while at < file.len() {
        let Some(n) = file[at..].iter().position(|&b| b == b'\n') else { return refuse(text, 3) };
        let mut l = &file[at..at + n];
        at += n + 1;
        if let Some(content) = l.strip_suffix(b"\r") {
            l = content;
        }
        let continued = l.last() == Some(&mark);
        if continued && at == file.len() {
            return refuse(text, 3);
        }
        if continues && !l.starts_with(b"CONT ") {
            return refuse(text, 5);
        }
        if !l.iter().all(|&b| permitted(b)) {
            return refuse(text, 4);
        }
        if continues {
            l = &l[5..];
        }
        if continued {
            l = &l[..l.len() - 1];
        }
        if !full && l.len() + !continued as usize <= text.len() - used {
            text[used..used + l.len()].copy_from_slice(l);
            used += l.len();
            if !continued {
                text[used] = b'\n';
                used += 1;
            }
        } else {
            full = true;
        }
        continues = continued;
    }
    if continues {
        return refuse(text, 3);
    }
    if full {
        return refuse(text, 6);
    }
    text[used..].fill(0);
    used as u64
}

// Byte by byte, testing and copying in one pass. Only for input that is right and has room.
#[inline(never)]
fn by_bytes(file: &[u8], mark: u8, text: &mut [u8]) -> u64 {
    let (mut at, mut used, mut continues) = (0, 0, false);
    while at < file.len() {
        if continues {
            if !file[at..].starts_with(b"CONT ") {
                return refuse(text, 5);
            }
            at += 5;
        }
        let (from, to) = (&file[at..], &mut text[used..]);
        let mut i = 0;
        while i < from.len() && i < to.len() && permitted(from[i]) {
            to[i] = from[i];
            i += 1;
        }
        if i == from.len() {
            return refuse(text, 3);
        }
        if i == to.len() {
            return refuse(text, 6);
        }
        let end = if from[i] == b'\n' {
            1
        } else if from[i..].starts_with(b"\r\n") {
            2
        } else {
            return refuse(text, 4);
        };
        let continued = i > 0 && from[i - 1] == mark;
        at += i + end;
        used += i;
        if continued {
            used -= 1;
        } else {
            text[used] = b'\n';
            used += 1;
        }
        continues = continued;
    }
    if continues {
        return refuse(text, 3);
    }
    text[used..].fill(0);
    used as u64
}

// A file of about this size: object lines of 25 to 84 bytes, every third cut in its middle.
fn input(size: usize) -> Vec<u8> {
    let (mut file, mut seed, mut line) = (Vec::new(), 1u64, 0);
    while file.len() + 100 < size {
        seed = seed.wrapping_mul(6364136223846793005).wrapping_add(1442695040888963407);
        let len = 20 + (seed >> 33) % 60;
        file.extend_from_slice(b"OBJE ");
        for j in 0..len {
            file.push(b'0' + ((seed >> (j % 50)) % 10) as u8);
            if line % 3 == 0 && j == len / 2 {
                file.extend_from_slice(b"\\\nCONT ");
            }
        }
        file.push(b'\n');
        line += 1;
    }
    file
}

type Unfold = fn(&[u8], u8, &mut [u8]) -> u64;

// One run in milliseconds. The room holds other bytes before it, and what it holds after it is looked at.
fn timed(f: Unfold, file: &[u8], text: &mut [u8], expect: &[u8]) -> f64 {
    text.fill(0xee);
    let start = Instant::now();
    let used = f(file, b'\\', text) as usize;
    let time = start.elapsed().as_secs_f64() * 1e3;
    assert!(used == expect.len() && text[..used] == *expect && text[used..].iter().all(|&b| b == 0));
    time
}

// The three in turn, forty times; the least time of each.
fn main() {
    for (name, size) in [("1 MiB", 1 << 20), ("16 MiB", 16 << 20)] {
        let file = input(size);
        let mut text = vec![0u8; file.len()];
        let used = by_lines(&file, b'\\', &mut text) as usize;
        let expect = text[..used].to_vec();
        let mut least = [f64::MAX; 3];
        for _ in 0..40 {
            for (i, f) in [proved as Unfold, by_lines, by_bytes].into_iter().enumerate() {
                least[i] = least[i].min(timed(f, &file, &mut text, &expect));
            }
        }
        let [ours, lines, bytes] = least;
        println!(
            "{name}: proved {ours:.2} ms; Rust by lines {lines:.2} ms, ratio {:.2}; Rust by bytes {bytes:.2} ms, \
             ratio {:.2}",
            ours / lines, ours / bytes,
        );
    }
}
