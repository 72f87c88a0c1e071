//! The supply: the capacitance that keeps a box running for a time, and the time that a capacitance keeps it running.

use super::units::{Time, PICOS_A_SECOND};

#[derive(Clone, Copy, Debug, PartialEq)]
pub struct Supply {
    /// Watts: at the load where there is a converter, else at the capacitor.
    pub power: f64,
    /// Of the converter between capacitor and load, as a fraction; none where the power is that at the capacitor.
    pub efficiency: Option<f64>,
    /// Volts when the supply drops, and the lowest that the box runs at.
    pub drop: f64,
    pub lowest: f64,
    /// Ohms in series with the capacitor.
    pub esr: f64,
    /// Fractions that may be missing.
    pub tolerance: f64,
    pub age: f64,
    pub temperature: f64,
}

impl Supply {
    /// Watts at the capacitor.
    pub fn drawn(&self) -> f64 {
        self.power / self.efficiency.unwrap_or(1.0)
    }

    /// Volts that are lost in the capacitor from the start on: those of the largest current, at the lowest voltage. The current is smaller
    /// before, so no more than this is lost at any time.
    pub fn lost_volts(&self) -> f64 {
        self.esr * self.drawn() / self.lowest
    }

    /// (V0 − lost)² − V1²; 0 or less where nothing is left.
    pub fn swing(&self) -> f64 {
        let start = self.drop - self.lost_volts();
        start.max(0.0) * start - self.lowest * self.lowest
    }

    /// What tolerance, age and temperature leave of a capacitor.
    pub fn kept(&self) -> f64 {
        (1.0 - self.tolerance) * (1.0 - self.age) * (1.0 - self.temperature)
    }

    /// Farads: the energy of the time, P·t, out of what the capacitor gives between the two voltages, C·(V0² − V1²)/2, of which
    /// tolerance, age and temperature leave a part.
    pub fn capacitance(&self, time: Time) -> f64 {
        2.0 * self.drawn() * time.seconds() / (self.swing() * self.kept())
    }

    /// How long so many farads hold the box up; rounded down.
    pub fn held_up(&self, capacitance: f64) -> Time {
        let seconds = capacitance * self.swing() * self.kept() / (2.0 * self.drawn());
        Time((seconds * PICOS_A_SECOND as f64).clamp(0.0, super::units::LONGEST as f64) as u128)
    }
}

/// Farads with four digits, rounded up, in the unit that suits them.
pub fn farads(capacitance: f64) -> String {
    let (scale, unit) = unit_of(capacitance);
    let value = capacitance / scale;
    let places = (3 - value.log10().floor().max(0.0) as i32).max(0) as usize;
    let step = 10f64.powi(places as i32);
    // A product such as 972.2 · 10 may come out a hair above a whole number: that hair is no reason to round up.
    format!("{:.places$} {unit}", (value * step * (1.0 - 1e-12)).ceil() / step)
}

fn unit_of(capacitance: f64) -> (f64, &'static str) {
    let units = [(1.0, "F"), (1e-3, "mF"), (1e-6, "µF"), (1e-9, "nF"), (1e-12, "pF")];
    units.into_iter().find(|(scale, _)| capacitance >= *scale).unwrap_or((1e-12, "pF"))
}

/// The rows of values that capacitors are sold in.
pub const E6: [u32; 6] = [10, 15, 22, 33, 47, 68];
pub const E12: [u32; 12] = [10, 12, 15, 18, 22, 27, 33, 39, 47, 56, 68, 82];

/// The smallest value of a row that is no less than so many farads, in words.
pub fn next_of(row: &[u32], capacitance: f64) -> String {
    let decade = capacitance.max(1e-12).log10().floor() as i32;
    let values = (decade - 1..=decade + 1).flat_map(|power| row.iter().map(move |value| (*value, power)));
    let farads_of = |(value, power): (u32, i32)| f64::from(value) * 10f64.powi(power - 1);
    let next = values.map(farads_of).find(|value| *value >= capacitance * (1.0 - 1e-12)).unwrap_or(capacitance);
    // A hair below one of a unit is one of it.
    let (scale, unit) = unit_of(next * (1.0 + 1e-9));
    format!("{} {unit}", (next / scale * 1000.0).round() / 1000.0)
}

#[cfg(test)]
mod tests {
    use super::*;

    const MS: u128 = 1_000_000_000;

    /// 12 V down to 6 V, no losses.
    const PLAIN: Supply = Supply {
        power: 2.5,
        efficiency: None,
        drop: 12.0,
        lowest: 6.0,
        esr: 0.0,
        tolerance: 0.0,
        age: 0.0,
        temperature: 0.0,
    };

    fn near(x: f64, y: f64) -> bool {
        (x - y).abs() <= 1e-9 * y.abs()
    }

    /// E = ½ · C · (V0² − V1²), three of them worked out by hand.
    #[test]
    fn the_textbook_form() {
        // 1,000 µF from 12 V to 6 V: ½ · 0.001 · (144 − 36) = 0.054 J; at 2.5 W that is 21.6 ms.
        assert_eq!(PLAIN.held_up(1000e-6), Time(21_600 * MS / 1000));
        assert!(near(PLAIN.capacitance(Time(21_600 * MS / 1000)), 1000e-6));
        // 470 µF from 5 V to 3 V: ½ · 0.00047 · (25 − 9) = 0.00376 J; at 0.4 W that is 9.4 ms.
        let small = Supply { power: 0.4, drop: 5.0, lowest: 3.0, ..PLAIN };
        assert!(near(small.held_up(470e-6).seconds(), 9.4e-3));
        assert!(near(small.capacitance(Time(9400 * MS / 1000)), 470e-6));
        // 0.1 F from 48 V to 24 V: ½ · 0.1 · (2,304 − 576) = 86.4 J; at 60 W that is 1.44 s.
        let large = Supply { power: 60.0, drop: 48.0, lowest: 24.0, ..PLAIN };
        assert!(near(large.held_up(0.1).seconds(), 1.44));
        assert!(near(large.capacitance(Time(1440 * MS)), 0.1));
    }

    /// A converter of 80%: 2.5 W at the load are 3.125 W at the capacitor, so 1,000 µF last 54 mJ / 3.125 W = 17.28 ms.
    #[test]
    fn a_converter_takes_its_part() {
        let supply = Supply { efficiency: Some(0.8), ..PLAIN };
        assert!(near(supply.drawn(), 3.125) && near(supply.held_up(1000e-6).seconds(), 17.28e-3));
    }

    /// 1.2 ohms: 2.5 W at 6 V are 0.41667 A, which lose 0.5 V; ½ · 0.001 · (11.5² − 36) = 0.048125 J, 19.25 ms.
    #[test]
    fn the_resistance_takes_volts() {
        let supply = Supply { esr: 1.2, ..PLAIN };
        assert!(near(supply.lost_volts(), 0.5) && near(supply.swing(), 96.25));
        assert!(near(supply.held_up(1000e-6).seconds(), 19.25e-3));
        assert!(near(supply.capacitance(Time(19_250 * MS / 1000)), 1000e-6));
    }

    /// The resistance in steps of a microsecond: the box runs at least as long as was said, and less than a tenth longer.
    #[test]
    fn the_resistance_is_held_against_small_steps() {
        let supply = Supply { esr: 1.2, ..PLAIN };
        let (farad, step) = (1000e-6, 1e-6);
        let (mut inside, mut time) = (supply.drop, 0.0);
        loop {
            // The current of a load of constant power behind the resistance: P = (V − I·R)·I.
            let root = (inside * inside - 4.0 * supply.esr * supply.power).sqrt();
            let current = (inside - root) / (2.0 * supply.esr);
            if inside - current * supply.esr < supply.lowest {
                break;
            }
            inside -= current * step / farad;
            time += step;
        }
        let said = supply.held_up(farad).seconds();
        assert!(time >= said && time < 1.1 * said, "{time} {said}");
    }

    /// A fifth lost to tolerance, a fifth to age, a tenth to cold: 1,000 µF are 576 µF.
    #[test]
    fn what_is_lost_is_not_there() {
        let supply = Supply { tolerance: 0.2, age: 0.2, temperature: 0.1, ..PLAIN };
        assert!(near(supply.kept(), 0.576) && near(supply.held_up(1000e-6).seconds(), 21.6e-3 * 0.576));
    }

    #[test]
    fn the_capacitor_gives_what_the_box_takes() {
        let supply = Supply { tolerance: 0.2, age: 0.2, ..PLAIN };
        let farad = supply.capacitance(Time(14 * MS));
        let given = farad * 0.8 * 0.8 * (144.0 - 36.0) / 2.0;
        assert!((given - 2.5 * 0.014).abs() < 1e-12);
        assert_eq!(farads(farad), "1.013 mF");
    }

    #[test]
    fn rounded_up() {
        assert_eq!(
            (farads(0.0010126), farads(972.2e-6), farads(2.0)),
            ("1.013 mF".into(), "972.2 µF".into(), "2.000 F".into())
        );
        assert_eq!((farads(4.7001e-3), farads(0.0)), ("4.701 mF".into(), "0.000 pF".into()));
    }

    #[test]
    fn the_next_value_that_is_sold() {
        for (farad, e6, e12) in [
            (1.024e-3, "1.5 mF", "1.2 mF"),
            (973e-6, "1 mF", "1 mF"),
            (1000e-6, "1 mF", "1 mF"),
            (680e-6, "680 µF", "680 µF"),
            (681e-6, "1 mF", "820 µF"),
            (83e-6, "100 µF", "100 µF"),
            (4.7e-9, "4.7 nF", "4.7 nF"),
        ] {
            assert_eq!((next_of(&E6, farad), next_of(&E12, farad)), (e6.to_owned(), e12.to_owned()), "{farad}");
        }
    }
}
