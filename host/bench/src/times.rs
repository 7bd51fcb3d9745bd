//! Times of many rounds, as one number and its spread.

/// The value below which the given share of the values lies.
pub fn quantile(values: &[f64], share: f64) -> f64 {
    let mut sorted = values.to_vec();
    sorted.sort_by(f64::total_cmp);
    sorted[((sorted.len() - 1) as f64 * share).round() as usize]
}

/// The median, with the first and third quartile in brackets.
pub fn spread(values: &[f64], digits: usize) -> String {
    let [low, middle, high] = [0.25, 0.5, 0.75].map(|share| quantile(values, share));
    format!("{middle:.digits$} [{low:.digits$}, {high:.digits$}]")
}

/// Each round's own ratio, since the machine's clock may change between rounds.
pub fn ratios(above: &[f64], below: &[f64]) -> Vec<f64> {
    above.iter().zip(below).map(|(above, below)| above / below).collect()
}

#[cfg(test)]
mod tests {
    use super::{quantile, ratios, spread};

    #[test]
    fn quantiles_of_five_values() {
        let values = [5.0, 1.0, 4.0, 2.0, 3.0];
        assert_eq!([0.0, 0.25, 0.5, 0.75, 1.0].map(|share| quantile(&values, share)), [1.0, 2.0, 3.0, 4.0, 5.0]);
        assert_eq!(spread(&values, 1), "3.0 [2.0, 4.0]");
    }

    #[test]
    fn ratios_round_by_round() {
        assert_eq!(ratios(&[6.0, 1.0], &[2.0, 4.0]), [3.0, 0.25]);
    }
}
