// The time of the check of the largest models.
use std::time::Instant;

extern "C" {
    fn vendorfinch_check_model(model: *const u8, size: usize) -> u64;
}

fn record(kind: u8, payload: &[u8]) -> Vec<u8> {
    let mut r = vec![(payload.len() % 256) as u8, (payload.len() / 256) as u8, kind, 0];
    r.extend_from_slice(payload);
    r
}

// Names of 24 bytes that differ in their last two bytes, or of as many as fit.
fn name(n: usize, size: usize) -> Vec<u8> {
    let digits = b"0123456789ABCDEFGHIJKLMNOPQRSTUVWXYZabcdefghijklmnopqrstuvwxyz_";
    let mut name = vec![b'N'; size - 2];
    name.push(digits[n / digits.len()]);
    name.push(digits[n % digits.len()]);
    name
}

// One topic with so many tables, each with so many dates as attributes, names of this size.
fn model(tables: usize, attributes: usize, size: usize) -> Vec<u8> {
    let mut m = [record(1, b"_@\\T"), record(2, b"M"), record(3, b"N")].concat();
    for t in 0..tables {
        m.extend(record(4, &[vec![0], name(t, size)].concat()));
        for a in 0..attributes {
            m.extend(record(5, &[vec![0, 6], name(a, size)].concat()));
        }
    }
    m.extend(record(6, b""));
    m
}

fn main() {
    for (what, tables, attributes, size) in [
        ("512 tables of 1 attribute, names of 24 bytes", 512, 1, 24),
        ("33 tables of 64 attributes, names of 24 bytes", 33, 64, 24),
        ("512 tables of 13 attributes, names of 3 bytes", 512, 13, 3),
    ] {
        let m = model(tables, attributes, size);
        assert!(m.len() <= 65536, "{}", m.len());
        let mut best = f64::MAX;
        for _ in 0..50 {
            let start = Instant::now();
            let answer = unsafe { vendorfinch_check_model(m.as_ptr(), m.len()) };
            best = best.min(start.elapsed().as_secs_f64());
            assert_eq!(answer, 256, "{} {}", answer % 256, answer / 256);
        }
        println!("{what}: {} bytes, {:.2} ms", m.len(), best * 1e3);
    }
}
