// Writing the table of a file that was read, as a ratio to reading it. See docs/SPEED.md.
use std::time::Instant;

#[path = "calls.rs"]
mod calls;
#[path = "network.rs"]
mod network;
use calls::{vendorfinch_read, vendorfinch_write};

const SEED: u64 = 20261115;

fn milliseconds(f: impl FnOnce()) -> f64 {
    let start = Instant::now();
    f();
    start.elapsed().as_secs_f64() * 1e3
}

// Reads and writes in turns, and writes what was written again: the bytes stay the same.
fn measure(name: &str, objects: usize, width: usize, turns: usize) -> f64 {
    let (model, file) = (network::network(), network::network_file(objects, 1));
    let (mut text, mut marks) = (vec![0u8; 1 << 24], vec![0u8; 8]);
    let (mut rows, mut cells) = (vec![0u64; 2 * objects], vec![0i64; 18 * objects]);
    let mut points = vec![0i64; 12 * objects];
    let (mut index, mut out, mut answer) = (vec![0u64; 6 * objects], vec![0u8; 1 << 24], [0u64; 4]);
    let (mut reading, mut writing, mut size) = (f64::MAX, f64::MAX, 0);
    let mut source = file.clone();
    for _ in 0..turns {
        reading = reading.min(milliseconds(|| unsafe {
            vendorfinch_read(
                model.as_ptr(), model.len(), source.as_ptr(), source.len(), text.as_mut_ptr(), text.len(),
                marks.as_mut_ptr(), marks.len(), rows.as_mut_ptr(), rows.len(), cells.as_mut_ptr(), cells.len(),
                points.as_mut_ptr(), points.len(), index.as_mut_ptr(), index.len(), SEED, answer.as_mut_ptr(), 4,
            );
        }));
        assert_eq!(answer, [0, 2 * objects as u64, 18 * objects as u64, 3 * objects as u64]);
        out.fill(7);
        writing = writing.min(milliseconds(|| unsafe {
            vendorfinch_write(
                model.as_ptr(), model.len(), text.as_ptr(), text.len(), marks.as_ptr(), marks.len(),
                rows.as_ptr(), rows.len(), cells.as_ptr(), cells.len(), points.as_ptr(), points.len(),
                2 * objects, 18 * objects, 3 * objects, width, out.as_mut_ptr(), out.len(),
                index.as_mut_ptr(), index.len(), SEED, answer.as_mut_ptr(), 4,
            );
        }));
        assert_eq!(answer[0], 0, "refused");
        let n = answer[1] as usize;
        assert!(size == 0 || (source == out[..n]), "written again it differs");
        (source, size) = (out[..n].to_vec(), n);
    }
    println!(
        "{name}, width {width}: {size} bytes written: writing {writing:.1} ms, reading {reading:.1} ms, ratio {:.2}",
        writing / reading,
    );
    writing
}

// At width 16 the table of the 16 MiB file would be written as more than 16,777,216 bytes, so there it has fewer
// objects.
fn main() {
    for width in [80, 65_535, 16] {
        let objects = if width == 16 { 5_250 } else { 6_475 };
        let before = measure("1 MiB", objects, width, 40);
        let sixteen = measure("16 MiB", 16 * objects, width, 8);
        let behind = measure("1 MiB", objects, width, 40);
        println!("growth {:.1}", sixteen / before.min(behind));
    }
}
