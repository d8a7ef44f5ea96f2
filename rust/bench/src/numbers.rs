//! Numbers as the page has them: three digits that count, and a unit.

use timing::Spread;

/// The unit of a time and how many nanoseconds it has.
fn unit(nanoseconds: f64) -> (&'static str, f64) {
    match nanoseconds {
        n if n < 1e3 => ("ns", 1.0),
        n if n < 1e6 => ("us", 1e3),
        _ => ("ms", 1e6),
    }
}

/// Three digits that count, two after the point at most.
fn digits(n: f64) -> String {
    match n {
        n if n < 10.0 => format!("{n:.2}"),
        n if n < 100.0 => format!("{n:.1}"),
        _ => format!("{n:.0}"),
    }
}

pub fn time(nanoseconds: f64) -> String {
    let (name, size) = unit(nanoseconds);
    format!("{} {name}", digits(nanoseconds / size))
}

/// A time that is a whole number of its unit, as an axis has it.
pub fn round_time(nanoseconds: f64) -> String {
    let (name, size) = unit(nanoseconds);
    format!("{:.0} {name}", nanoseconds / size)
}

/// The median with its unit, and in it the lowest and the highest.
pub fn times(spread: Spread) -> String {
    let (name, size) = unit(spread.median);
    let [low, median, high] = [spread.low, spread.median, spread.high].map(|n| digits(n / size));
    format!("{median} {name} ({low} to {high})")
}

pub fn ratios(spread: Spread) -> String {
    let [low, median, high] = [spread.low, spread.median, spread.high].map(digits);
    format!("{median} ({low} to {high})")
}

pub fn ratio(n: f64) -> String {
    digits(n)
}

#[cfg(test)]
mod tests {
    use super::*;

    #[test]
    fn three_digits_count() {
        assert_eq!(time(9.876), "9.88 ns");
        assert_eq!(time(98.76), "98.8 ns");
        assert_eq!(time(987.6), "988 ns");
        assert_eq!(time(98_765.0), "98.8 us");
        assert_eq!(time(1_987_654.0), "1.99 ms");
        assert_eq!(ratio(0.5), "0.50");
    }

    #[test]
    fn a_spread_has_the_median_s_unit() {
        let spread = Spread {
            low: 900.0,
            median: 1100.0,
            high: 12_000.0,
        };
        assert_eq!(times(spread), "1.10 us (0.90 to 12.0)");
    }
}
