//! Numbers of several rounds, and how numbers are written.

/// What stands for the numbers of several rounds.
#[derive(Clone, Copy, Debug, PartialEq)]
pub struct Spread {
    /// The middle one.
    pub median: f64,
    /// The least.
    pub least: f64,
    /// The greatest.
    pub greatest: f64,
}

impl Spread {
    /// Of these, of which there is one at least.
    pub fn of(numbers: impl Iterator<Item = f64>) -> Spread {
        let mut sorted: Vec<f64> = numbers.collect();
        sorted.sort_by(f64::total_cmp);
        let greatest = sorted[sorted.len() - 1];
        Spread { median: sorted[sorted.len() / 2], least: sorted[0], greatest }
    }

    /// From the least to the greatest.
    pub fn range(self) -> String {
        format!("{:.2} to {:.2}", self.least, self.greatest)
    }
}

/// A number with a comma between the thousands.
pub fn grouped(number: f64) -> String {
    let digits = format!("{number:.0}");
    let mut text = String::new();
    for (at, digit) in digits.chars().enumerate() {
        if at > 0 && (digits.len() - at) % 3 == 0 {
            text.push(',');
        }
        text.push(digit);
    }
    text
}

#[cfg(test)]
mod tests {
    use super::*;

    #[test]
    fn the_median_is_the_middle_one() {
        let want = Spread { median: 20.0, least: 10.0, greatest: 30.0 };
        assert_eq!(Spread::of([30.0, 10.0, 20.0].into_iter()), want);
    }

    #[test]
    fn thousands_are_parted() {
        let numbers = [0.0, 999.4, 1000.0, 1234567.0].map(grouped);
        assert_eq!(numbers, ["0", "999", "1,000", "1,234,567"]);
    }
}
