//! An axis of a chart: from its least to its greatest value, with round numbers on the way.

/// The values that an axis has room for; its ends are finite and apart.
#[derive(Clone, Copy, Debug, PartialEq)]
pub struct Axis {
    pub low: f64,
    pub high: f64,
}

impl Axis {
    /// For these values; those that are not finite have no place on it.
    pub fn of(values: impl Iterator<Item = f64>) -> Axis {
        let finite = values.filter(|value| value.is_finite());
        let (low, high) = finite.fold((f64::INFINITY, f64::NEG_INFINITY), |(l, h), v| (l.min(v), h.max(v)));
        if low > high {
            return Axis { low: 0.0, high: 1.0 };
        }
        if low < high {
            return Axis { low, high };
        }
        let pad = (low.abs() / 100.0).max(f64::MIN_POSITIVE);
        Axis { low: (low - pad).max(f64::MIN), high: (high + pad).min(f64::MAX) }
    }

    /// How far along the axis a value stands, 0 to 1. By halves where the difference is too large for a float.
    pub fn share(&self, value: f64) -> f64 {
        let span = self.high - self.low;
        let share = match span.is_finite() {
            true => (value - self.low) / span,
            false => (value / 2.0 - self.low / 2.0) / (self.high / 2.0 - self.low / 2.0),
        };
        share.clamp(0.0, 1.0)
    }

    /// Round numbers, about five of them; the two ends where there are none.
    pub fn ticks(&self) -> Vec<f64> {
        let rough = (self.high / 5.0 - self.low / 5.0).max(f64::MIN_POSITIVE);
        let scale = 10f64.powf(rough.log10().floor());
        let step = [1.0, 2.0, 5.0, 10.0].into_iter().map(|m| m * scale).find(|step| *step >= rough).unwrap_or(rough);
        let first = (self.low / step).ceil();
        let ticks: Vec<f64> = (0..8).map(|i| (first + f64::from(i)) * step).take_while(|t| *t <= self.high).collect();
        match ticks.iter().all(|tick| tick.is_finite()) && ticks.len() > 1 {
            true => ticks,
            false => vec![self.low, self.high],
        }
    }
}

#[cfg(test)]
mod tests {
    use super::*;

    #[test]
    fn any_values_have_an_axis() {
        for values in [
            vec![],
            vec![f64::NAN],
            vec![0.0],
            vec![5.0, 5.0],
            vec![f64::MAX, f64::MIN],
            vec![5e-324, -5e-324],
            vec![1e16, 1e16 + 2.0],
        ] {
            let axis = Axis::of(values.iter().copied());
            assert!(axis.low < axis.high, "{values:?}");
            assert!(axis.ticks().len() > 1 && axis.ticks().iter().all(|tick| tick.is_finite()), "{values:?}");
            assert!(values.iter().filter(|v| v.is_finite()).all(|v| (0.0..=1.0).contains(&axis.share(*v))));
        }
        assert_eq!(Axis::of([1.0, 3.0].into_iter()).share(2.0), 0.5);
        assert_eq!(Axis { low: 0.0, high: 10.0 }.ticks(), [0.0, 2.0, 4.0, 6.0, 8.0, 10.0]);
    }
}
