//! Runs programs in turn, and keeps the best times and the largest memory of each.

use std::fs::File;
use std::io::{self, Error};
use std::process::{Command, Stdio};
use std::time::Instant;

/// `struct rusage` of Linux on a machine of 64 bits.
#[repr(C)]
#[derive(Default)]
struct Usage {
    /// In seconds and microseconds.
    user: [i64; 2],
    system: [i64; 2],
    /// In KiB, and at least what the program that started it held: about 2 MiB here.
    largest_resident: i64,
    rest: [i64; 13],
}

impl Usage {
    fn processor_seconds(&self) -> f64 {
        [self.user, self.system]
            .iter()
            .map(|[seconds, micros]| *seconds as f64 + *micros as f64 / 1e6)
            .sum()
    }
}

unsafe extern "C" {
    fn wait4(pid: i32, status: *mut i32, options: i32, usage: *mut Usage) -> i32;
}

/// A program with its words, and the best of its runs, each figure by itself.
#[allow(dead_code)] // Each program that measures prints a part.
pub struct Runner {
    pub name: String,
    program: String,
    words: Vec<String>,
    output: Option<String>,
    pub seconds: f64,
    /// Of processor time, in the program and in the system.
    pub processor_seconds: f64,
    /// The largest resident memory.
    pub kib: i64,
}

impl Runner {
    pub fn new(name: &str, program: &str, words: &[&str], output: Option<&str>) -> Self {
        let words = words.iter().map(|word| word.to_string()).collect();
        Runner {
            name: name.to_string(),
            program: program.to_string(),
            words,
            output: output.map(str::to_string),
            seconds: f64::INFINITY,
            processor_seconds: f64::INFINITY,
            kib: 0,
        }
    }

    pub fn run(&mut self) -> io::Result<()> {
        let output = match &self.output {
            Some(path) => Stdio::from(File::create(path)?),
            None => Stdio::null(),
        };
        let mut command = Command::new(&self.program);
        command.args(&self.words).stdout(output).stderr(Stdio::null());
        let start = Instant::now();
        let child = command.spawn()?;
        let mut status = 0;
        let mut usage = Usage::default();
        // Sound, because the child is ours, and nothing else waits for it.
        let waited = unsafe { wait4(child.id() as i32, &mut status, 0, &mut usage) };
        let seconds = start.elapsed().as_secs_f64();
        if waited < 0 || status != 0 {
            return Err(Error::other(format!("{} failed", self.name)));
        }
        self.seconds = self.seconds.min(seconds);
        self.processor_seconds = self.processor_seconds.min(usage.processor_seconds());
        self.kib = self.kib.max(usage.largest_resident);
        Ok(())
    }
}

pub fn best_of(rounds: usize, runners: &mut [Runner]) -> io::Result<()> {
    for _ in 0..rounds {
        for runner in runners.iter_mut() {
            runner.run()?;
        }
    }
    Ok(())
}
