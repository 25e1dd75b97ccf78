// The command against the library's call alone and against ogrinfo: the same file, one run. See docs/SPEED.md.
use std::ffi::{c_int, c_long};
use std::fs;
use std::process::{Command, Stdio};
use std::time::Instant;

#[path = "calls.rs"]
mod calls;
#[path = "network.rs"]
mod network;
use calls::vendorfinch_read;
use network::{network, network_file};

const FOLDER: &str = "target/bench/files";
const TURNS: usize = 15;

extern "C" {
    fn wait4(process: c_int, status: *mut c_int, options: c_int, usage: *mut [c_long; 18]) -> c_int;
}

// Seconds, and the most memory of a program in bytes, which must end well.
fn run(words: &[&str]) -> (f64, usize) {
    let start = Instant::now();
    let mut command = Command::new(words[0]);
    let child = command.args(&words[1..]).stdout(Stdio::null()).stderr(Stdio::null()).spawn().expect(words[0]);
    let (mut status, mut usage) = (0, [0; 18]);
    unsafe { wait4(child.id() as c_int, &mut status, 0, &mut usage) };
    assert_eq!(status, 0, "{words:?}");
    (start.elapsed().as_secs_f64(), usage[4] as usize * 1024)
}

// The lengths of the buffers that a file needs: text, rows, cells, points, index.
fn rooms(model: &[u8], file: &[u8]) -> [usize; 5] {
    let n = file.len();
    let answer = call(model, file, [n, n / 7, 9 * (n / 7), 4 * (n / 9), 3 * (n / 7)]).1;
    let [objects, cells, points] = [answer[1], answer[2], answer[3]].map(|n| n as usize);
    [n, objects, cells, 4 * points, 3 * objects]
}

// Seconds of one call in new buffers of these lengths, and its answer.
fn call(model: &[u8], file: &[u8], rooms: [usize; 5]) -> (f64, [u64; 4]) {
    let (mut text, mut marks, mut rows) = (vec![0u8; rooms[0]], vec![0u8; 8], vec![0u64; rooms[1]]);
    let (mut cells, mut points, mut index) = (vec![0i64; rooms[2]], vec![0i64; rooms[3]], vec![0u64; rooms[4]]);
    let mut answer = [9; 4];
    let start = Instant::now();
    unsafe {
        vendorfinch_read(
            model.as_ptr(), model.len(), file.as_ptr(), file.len(), text.as_mut_ptr(), text.len(), marks.as_mut_ptr(),
            marks.len(), rows.as_mut_ptr(), rows.len(), cells.as_mut_ptr(), cells.len(), points.as_mut_ptr(),
            points.len(), index.as_mut_ptr(), index.len(), 20260101, answer.as_mut_ptr(), 4,
        )
    };
    let seconds = start.elapsed().as_secs_f64();
    assert_eq!(answer[0], 0);
    (seconds, answer)
}

fn least(times: &[f64]) -> f64 {
    times.iter().copied().fold(f64::INFINITY, f64::min)
}

// One large file: the call alone, the command, ogrinfo where it is installed, in turns.
fn large(command: &str) {
    let (model, file) = (network(), network_file(105_000, 1));
    let (model_name, file_name) = (&format!("{FOLDER}/network.bin"), &format!("{FOLDER}/network.itf"));
    fs::write(model_name, &model).unwrap();
    fs::write(file_name, &file).unwrap();
    // a program's most memory is at least its parent's when it began, so it is asked before the large rooms are made
    let memory = run(&[command, "read", model_name, file_name]).1;
    let rooms = rooms(&model, &file);
    let ogrinfo = Command::new("ogrinfo").arg("--version").stdout(Stdio::null()).status().is_ok();
    let (mut alone, mut whole, mut other) = (Vec::new(), Vec::new(), Vec::new());
    for turn in 0..TURNS {
        alone.push(call(&model, &file, rooms).0);
        whole.push(run(&[command, "read", model_name, file_name]).0);
        if ogrinfo && turn < 3 {
            other.push(run(&["ogrinfo", "-so", "-al", file_name]).0);
        }
    }
    let buffers = model.len() + file.len() + rooms[0] + 8 + 8 * rooms[1..].iter().sum::<usize>();
    let (call, read) = (1e3 * least(&alone), 1e3 * least(&whole));
    println!("{} bytes, {} objects", file.len(), rooms[1]);
    println!("the call alone      {call:7.1} ms, its buffers {:.1} MB", buffers as f64 / 1e6);
    println!("vendorfinch read    {read:7.1} ms, {:.2} of it; {:.1} MB, {:.2} of them", read / call,
        memory as f64 / 1e6, memory as f64 / buffers as f64);
    if ogrinfo {
        let seconds = 1e3 * least(&other);
        println!("ogrinfo -so -al     {seconds:7.1} ms, {:.2} of vendorfinch read", seconds / read);
    }
}

// Forty files, one after the other and two at a time, in turns.
fn many(command: &str) {
    let model_name = format!("{FOLDER}/network.bin");
    let file = network_file(395, 1);
    let names: Vec<String> = (0..40).map(|i| format!("{FOLDER}/{i}.itf")).collect();
    for name in &names {
        fs::write(name, &file).unwrap();
    }
    let mut times = [Vec::new(), Vec::new()];
    for _ in 0..4 * TURNS {
        for jobs in ["1", "2"] {
            let mut words = vec![command, "read", "--jobs", jobs, &model_name];
            words.extend(names.iter().map(String::as_str));
            times[(jobs == "2") as usize].push(run(&words).0);
        }
    }
    let [one, two] = times.map(|t| 1e3 * least(&t));
    println!("40 files of {} bytes", file.len());
    println!("one after the other {one:7.1} ms");
    println!("--jobs 2            {two:7.1} ms, {:.2} of it", two / one);
}

fn main() {
    let command = std::env::args().nth(1).unwrap_or("target/c/kit/vendorfinch".into());
    fs::create_dir_all(FOLDER).unwrap();
    large(&command);
    many(&command);
}
