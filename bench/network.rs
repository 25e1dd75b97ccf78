// The models and the files of the benches of reading and writing.
#![allow(dead_code)]

// ## Models

fn record(kind: u16, payload: &[u8], out: &mut Vec<u8>) {
    out.extend((payload.len() as u16).to_le_bytes());
    out.extend(kind.to_le_bytes());
    out.extend(payload);
}

fn component(decimals: u8, least: i64, greatest: i64) -> Vec<u8> {
    let mut c = vec![decimals];
    c.extend(least.to_le_bytes());
    c.extend(greatest.to_le_bytes());
    c
}

fn begin(out: &mut Vec<u8>) {
    record(1, b"_@\\Network", out);
    record(2, b"Water", out);
    record(3, b"Pipes", out);
}

// Nodes with a text and a coordinate; pipes with a reference, a number and a line.
pub fn network() -> Vec<u8> {
    let (east, north) = (component(2, 48_000_000, 85_000_000), component(2, 7_000_000, 30_000_000));
    let mut m = Vec::new();
    begin(&mut m);
    record(4, b"\0Node", &mut m);
    record(5, b"\x01\x05\x14\x00Name", &mut m);
    record(5, &[b"\0\x02".as_slice(), &east, &north, b"Position"].concat(), &mut m);
    record(4, b"\0Pipe", &mut m);
    record(5, b"\0\x01\x00\x00From", &mut m);
    record(5, &[b"\0\x04".as_slice(), &component(1, 0, 99_999), b"Diameter"].concat(), &mut m);
    record(5, &[b"\0\x08\x03\x02".as_slice(), &east, &north, b"Course"].concat(), &mut m);
    record(6, b"", &mut m);
    m
}

// One table, whose objects have a reference alone.
fn small(reference: &[u8]) -> Vec<u8> {
    let mut m = Vec::new();
    begin(&mut m);
    record(4, b"\0Node", &mut m);
    record(5, reference, &mut m);
    record(6, b"", &mut m);
    m
}

// Small objects that refer to each other.
pub fn ring() -> Vec<u8> {
    small(b"\0\x01\x00\x00Next")
}

// Small objects, some of which refer to another.
pub fn spokes() -> Vec<u8> {
    small(b"\x01\x01\x00\x00Hub")
}

// ## Files

const HEAD: &[u8] = b"SCNT\nwritten for the bench\n////\nMTID Network\nMODL Water\nTOPI Pipes\nTABL Node\n";

fn line(file: &mut Vec<u8>, l: &str, number: usize) {
    if number % 3 == 0 {
        let (a, b) = l.split_at(l.len() / 2);
        file.extend(a.as_bytes());
        file.extend(b"\\\nCONT ");
        file.extend(b.as_bytes());
    } else {
        file.extend(l.as_bytes());
    }
    file.push(b'\n');
}

// So many nodes and as many pipes, a third of the lines cut. Pipe i refers to node `step` times i: with 1 to the node
// where its line begins.
pub fn network_file(n: usize, step: usize) -> Vec<u8> {
    let (mut f, mut k) = (HEAD.to_vec(), 0);
    let mut add = |f: &mut Vec<u8>, l: String| {
        line(f, &l, k);
        k += 1;
    };
    for i in 0..n {
        let (east, north) = (480000 + i % 300000, 70000 + i % 200000);
        add(&mut f, format!("OBJE n{i} chamber-{} {east}.{:02} {north}.{:02}", i % 977, i % 100, i * 7 % 100));
    }
    f.extend(b"ETAB\nTABL Pipe\n");
    for i in 0..n {
        add(&mut f, format!("OBJE p{i} n{} {}.{}", i * step % n, i % 1200, i % 10));
        add(&mut f, format!("STPT {}.50 {}.25", 480000 + i % 300000, 70000 + i % 200000));
        add(&mut f, format!("LIPT {}.00 {}.75", 480001 + i % 300000, 70001 + i % 200000));
        add(&mut f, format!("LIPT {}.40 {}.15", 480002 + i % 300000, 70003 + i % 200000));
        f.extend(b"ELIN\n");
    }
    f.extend(b"ETAB\nETOP\nEMOD\nENDE\n");
    f
}

pub fn ring_file(n: usize, name: impl Fn(usize) -> String) -> Vec<u8> {
    let mut f = HEAD.to_vec();
    for i in 0..n {
        f.extend(format!("OBJE {} {}\n", name(i), name((i + 1) % n)).as_bytes());
    }
    f.extend(b"ETAB\nETOP\nEMOD\nENDE\n");
    f
}

// So many objects, numbered behind a prefix; every second one refers to another, far from the one before.
pub fn spokes_file(n: usize, prefix: &str) -> Vec<u8> {
    let mut f = HEAD.to_vec();
    for i in 0..n {
        let hub = if i % 2 == 0 { "@".to_string() } else { format!("{prefix}{:06}", i * 31 % n) };
        f.extend(format!("OBJE {prefix}{i:06} {hub}\n").as_bytes());
    }
    f.extend(b"ETAB\nETOP\nEMOD\nENDE\n");
    f
}
