//! Times of calls: two in turns, medians and quartiles.

use std::hint::black_box;
use std::time::{Duration, Instant};

pub const ROUNDS: usize = 15;
/// A sample takes at least this long.
pub const SAMPLE: Duration = Duration::from_millis(5);

/// What two calls take, in seconds.
pub struct Timing {
    pub first: f64,
    pub second: f64,
    /// Quartiles of first / second over the rounds; the second of them is the median.
    pub ratio: [f64; 3],
}

/// The value below which a part of the values lies; the values are not empty.
fn quantile(values: &mut [f64], part: f64) -> f64 {
    values.sort_by(f64::total_cmp);
    let place = part * (values.len() - 1) as f64;
    let (low, high) = (values[place.floor() as usize], values[place.ceil() as usize]);
    low + (high - low) * place.fract()
}

/// How long this thread has waited for a processor so far, where the system says so.
fn waited() -> Duration {
    let words = std::fs::read_to_string("/proc/thread-self/schedstat").unwrap_or_default();
    let waited = words.split(' ').nth(1).and_then(|word| word.parse().ok());
    Duration::from_nanos(waited.unwrap_or(0))
}

/// Seconds a call, over at least `least` of time; what the thread waited for a processor is left out.
fn sample<T>(call: &mut impl FnMut() -> T, batch: u32, least: Duration) -> f64 {
    let before = waited();
    let start = Instant::now();
    let mut calls = 0;
    loop {
        for _ in 0..batch {
            black_box(call());
        }
        calls += batch;
        let elapsed = start.elapsed();
        if elapsed >= least {
            let worked = elapsed.saturating_sub(waited() - before);
            if worked >= least {
                return worked.as_secs_f64() / f64::from(calls);
            }
        }
    }
}

/// Calls that take about a fifth of `least`: the clock is read this seldom.
fn batch<T>(call: &mut impl FnMut() -> T, least: Duration) -> u32 {
    let each = sample(call, 1, least / 5);
    ((least.as_secs_f64() / 5.0 / each) as u32).max(1)
}

/// The two calls in turns, the one first and then the other.
pub fn compare<T>(mut first: impl FnMut() -> T, mut second: impl FnMut() -> T) -> Timing {
    let (of_first, of_second) = (batch(&mut first, SAMPLE), batch(&mut second, SAMPLE));
    let (mut xs, mut ys, mut ratios) = (Vec::new(), Vec::new(), Vec::new());
    for round in 0..ROUNDS {
        let (x, y) = if round % 2 == 0 {
            let x = sample(&mut first, of_first, SAMPLE);
            (x, sample(&mut second, of_second, SAMPLE))
        } else {
            let y = sample(&mut second, of_second, SAMPLE);
            (sample(&mut first, of_first, SAMPLE), y)
        };
        xs.push(x);
        ys.push(y);
        ratios.push(x / y);
    }
    Timing {
        first: quantile(&mut xs, 0.5),
        second: quantile(&mut ys, 0.5),
        ratio: [0.25, 0.5, 0.75].map(|part| quantile(&mut ratios, part)),
    }
}

/// The least of five short samples: for many different inputs, each timed by itself.
pub fn quick<T>(mut call: impl FnMut() -> T) -> f64 {
    let least = Duration::from_micros(150);
    let batch = batch(&mut call, least);
    (0..5).map(|_| sample(&mut call, batch, least)).fold(f64::INFINITY, f64::min)
}

/// The exponent of y as a power of x: the slope of least squares on logarithms.
pub fn exponent(points: &[(f64, f64)]) -> f64 {
    slope(&points.iter().map(|&(x, y)| (x.ln(), y.ln())).collect::<Vec<_>>())
}

/// The slope of the least-squares line.
pub fn slope(points: &[(f64, f64)]) -> f64 {
    let n = points.len() as f64;
    let mean = |part: fn(&(f64, f64)) -> f64| points.iter().map(part).sum::<f64>() / n;
    let (x, y) = (mean(|point| point.0), mean(|point| point.1));
    let covariance: f64 = points.iter().map(|point| (point.0 - x) * (point.1 - y)).sum();
    covariance / points.iter().map(|point| (point.0 - x).powi(2)).sum::<f64>()
}

/// Three digits.
fn digits(value: f64) -> String {
    let places = if value < 9.995 { 2 } else { usize::from(value < 99.95) };
    format!("{value:.places$}")
}

pub fn duration(seconds: f64) -> String {
    let (factor, unit) = match seconds {
        s if s < 1e-6 => (1e9, "ns"),
        s if s < 1e-3 => (1e6, "us"),
        _ => (1e3, "ms"),
    };
    format!("{} {unit}", digits(seconds * factor))
}

pub fn rate(per_second: f64) -> String {
    let (factor, unit) = if per_second < 1e6 { (1e-3, "k/s") } else { (1e-6, "M/s") };
    format!("{} {unit}", digits(per_second * factor))
}

#[cfg(test)]
mod tests {
    use super::*;

    #[test]
    fn quartiles_lie_between_the_values() {
        let mut values = [4.0, 1.0, 3.0, 2.0, 5.0];
        assert_eq!(
            [0.0, 0.25, 0.5, 0.6, 1.0].map(|part| quantile(&mut values, part)),
            [1.0, 2.0, 3.0, 3.4, 5.0]
        );
    }

    #[test]
    fn the_exponent_of_a_power_is_found() {
        let points: Vec<(f64, f64)> =
            [4.0, 8.0, 16.0].iter().map(|&x: &f64| (x, 3.0 * x.powf(1.58))).collect();
        assert!((exponent(&points) - 1.58).abs() < 1e-9);
    }

    #[test]
    fn times_have_three_digits() {
        assert_eq!(duration(1.234e-7), "123 ns");
        assert_eq!(duration(1.234e-5), "12.3 us");
        assert_eq!(duration(1.234e-3), "1.23 ms");
        assert_eq!(rate(1.234e5), "123 k/s");
        assert_eq!(rate(9.996e6), "10.0 M/s");
    }
}
