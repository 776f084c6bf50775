//! The tables that are printed, in markdown.
use crate::measure::Taken;

/// One table: a row for each way, its median, its quartiles, its share of one of `count` things, and how many times ours it takes.
pub fn print_table(work: &str, taken: &[Taken], ours: &str, (share, count): (&str, f64)) {
    let base = median(taken, ours).expect("ours was timed");
    println!("\n| {work} | median, µs | quartiles, µs | {share} | times ours |");
    println!("|---|---|---|---|---|");
    for t in taken {
        let (low, middle, high) = (micros(t.low), micros(t.median), micros(t.high));
        println!("| {} | {middle} | {low} to {high} | {} | {:.2} |", t.name, plain(t.median / count), t.median / base);
    }
}

/// Whether another way takes at least so many times ours; nothing where it was not timed.
pub fn print_aim(taken: &[Taken], aim: &str, (ours, other): (&str, &str), times: f64) {
    let (Some(ours), Some(other)) = (median(taken, ours), median(taken, other)) else {
        return;
    };
    let verdict = if other / ours >= times { "met" } else { "missed" };
    println!("\n{aim}: {verdict}, {:.2}.", other / ours);
}

fn median(taken: &[Taken], name: &str) -> Option<f64> {
    taken.iter().find(|t| t.name == name).map(|t| t.median)
}

fn micros(nanos: f64) -> String {
    plain(nanos / 1000.0)
}

/// Three figures or so: no more was measured.
fn plain(number: f64) -> String {
    let digits = match number {
        n if n >= 100.0 => return grouped(n),
        n if n >= 10.0 => 1,
        n if n >= 1.0 => 2,
        _ => 3,
    };
    format!("{number:.digits$}")
}

/// A whole number, its digits in threes.
pub fn grouped(number: f64) -> String {
    let digits = format!("{number:.0}");
    let mut out = String::new();
    for (at, digit) in digits.chars().enumerate() {
        if at > 0 && (digits.len() - at) % 3 == 0 {
            out.push(',');
        }
        out.push(digit);
    }
    out
}
