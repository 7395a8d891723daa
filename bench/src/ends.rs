//! Whole programs: `ends INPUT RUNS NAME=PROGRAM[,ARGUMENT] ..` runs each in turn on the file INPUT with its standard
//! output thrown away, RUNS times, and prints the least wall time, processor time and peak memory of each. This
//! program keeps small, since Linux counts into a child's peak what its parent held at the start.

use std::fs::File;
use std::os::raw::{c_int, c_long};
use std::process::{Command, Stdio};
use std::time::Instant;

#[repr(C)]
#[derive(Default)]
struct Usage {
    user: [c_long; 2],
    system: [c_long; 2],
    peak_kib: c_long,
    rest: [c_long; 13],
}

unsafe extern "C" {
    fn wait4(pid: c_int, status: *mut c_int, options: c_int, usage: *mut Usage) -> c_int;
}

fn command(words: &str, input: &str) -> Command {
    let mut words = words.split(',');
    let mut command = Command::new(words.next().unwrap());
    command.args(words).stdin(File::open(input).unwrap());
    command
}

fn ms(time: [c_long; 2]) -> f64 {
    time[0] as f64 * 1e3 + time[1] as f64 / 1e3
}

fn main() {
    let words: Vec<String> = std::env::args().skip(1).collect();
    let (input, runs) = (&words[0], words[1].parse::<usize>().unwrap());
    let programs: Vec<(&str, &str)> = words[2..].iter().map(|word| word.split_once('=').unwrap()).collect();
    let mut least = vec![[f64::INFINITY; 3]; programs.len()];
    for _ in 0..runs {
        for ((_, words), least) in programs.iter().zip(&mut least) {
            let mut command = command(words, input);
            command.stdout(Stdio::null());
            let start = Instant::now();
            let child = command.spawn().unwrap();
            let (mut status, mut usage) = (0, Usage::default());
            // SAFETY: both pointers are to values of the C types.
            let pid = unsafe { wait4(child.id() as c_int, &mut status, 0, &mut usage) };
            let wall = start.elapsed().as_secs_f64() * 1e3;
            assert!(pid == child.id() as c_int && status == 0, "{words} ended with {status}");
            for (least, now) in least.iter_mut().zip([wall, ms(usage.user) + ms(usage.system), usage.peak_kib as f64])
            {
                *least = least.min(now);
            }
        }
    }
    for ((name, _), [wall, cpu, peak]) in programs.iter().zip(&least) {
        println!("{name}\t{wall:.2}\t{cpu:.2}\t{peak:.0}");
    }
}
