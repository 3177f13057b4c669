//! A row of the table of results: what was measured, the seconds it took, how many things a second, the throughput compared with
//! that of a yardstick, and the largest resident memory in KiB.

pub struct Row<'a> {
    pub what: &'a str,
    pub seconds: f64,
    /// How many things were done, and what they are.
    pub count: f64,
    pub things: &'a str,
    /// The seconds of the yardstick, if there is one.
    pub yardstick: Option<f64>,
    pub kib: Option<i64>,
}

impl Row<'_> {
    pub fn print(&self) {
        let ratio = self.yardstick.map(|seconds| format!("{:.2}", seconds / self.seconds));
        let kib = self.kib.map(|kib| grouped(kib as u64));
        println!(
            "| {} | {} | {} {} | {} | {} |",
            self.what,
            seconds(self.seconds),
            grouped(rounded(self.count / self.seconds)),
            self.things,
            ratio.unwrap_or_default(),
            kib.unwrap_or_default()
        );
    }
}

/// Seconds to three digits.
fn seconds(seconds: f64) -> String {
    let digits = (3 - seconds.log10().ceil() as i32).max(0) as usize;
    format!("{seconds:.digits$}")
}

/// A number rounded to three digits.
fn rounded(number: f64) -> u64 {
    let scale = 10f64.powi((number.log10().floor() as i32 - 2).max(0));
    ((number / scale).round() * scale) as u64
}

/// A number with a comma before each group of three digits.
fn grouped(number: u64) -> String {
    let digits = number.to_string();
    let mut text = String::new();
    for (place, digit) in digits.chars().enumerate() {
        if place > 0 && (digits.len() - place) % 3 == 0 {
            text.push(',');
        }
        text.push(digit);
    }
    text
}
