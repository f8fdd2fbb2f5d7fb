//! A logarithmic axis.

/// A logarithmic axis: the powers of ten at its ends, and the field's edges they fall on.
pub struct Axis {
    low: f64,
    high: f64,
    from: f64,
    to: f64,
}

impl Axis {
    /// The axis from the power of ten below all values to a little above them.
    pub fn over(values: impl Iterator<Item = f64> + Clone, from: f64, to: f64) -> Axis {
        let least = values.clone().fold(f64::INFINITY, f64::min);
        let most = values.fold(0.0, f64::max);
        Axis {
            low: least.log10().floor(),
            high: most.log10() + 0.15,
            from,
            to,
        }
    }

    pub fn place(&self, value: f64) -> f64 {
        let part = (value.log10() - self.low) / (self.high - self.low);
        self.from + part * (self.to - self.from)
    }

    /// The powers of ten on it.
    pub fn powers(&self) -> impl Iterator<Item = f64> {
        (self.low as i32..=self.high.floor() as i32).map(|power| 10f64.powi(power))
    }
}

#[cfg(test)]
mod tests {
    use super::*;

    #[test]
    fn an_axis_holds_its_values() {
        let axis = Axis::over([2.0, 500.0].into_iter(), 0.0, 300.0);
        assert_eq!(axis.powers().collect::<Vec<_>>(), [1.0, 10.0, 100.0]);
        assert_eq!(axis.place(1.0), 0.0);
        assert!(axis.place(100.0) < axis.place(500.0) && axis.place(500.0) < 300.0);
    }
}
