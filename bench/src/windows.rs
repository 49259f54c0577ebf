//! Windows above a station (document 02, wish 10).

use crate::elementary::Elementary;
use crate::instant::{self, END};
use crate::request::Row;

/// A call has at most this many samples.
pub const SAMPLE_LIMIT: usize = 1024;
/// The longest step in seconds: a day.
pub const STEP_LIMIT: u64 = 86_400;

pub type Vector = [f64; 3];

/// What a call for windows asks.
#[derive(Clone, Debug)]
pub struct Watch {
    /// The Earth-fixed position in kilometres, as it is lent: with any number of elements.
    pub station: Vec<f64>,
    /// An instant, inside the calendar or not.
    pub start: u64,
    /// Whole seconds.
    pub step: u64,
    pub samples: usize,
}

impl Watch {
    /// The instant of a sample, however large.
    pub fn instant(&self, sample: usize) -> u128 {
        self.start as u128 + sample as u128 * (self.step as u128 * 1_000_000)
    }

    /// The station, where it is one: three finite numbers, not all of them zeros.
    pub fn place(&self) -> Option<Vector> {
        let station: Vector = self.station.get(..3)?.try_into().ok()?;
        let lawful = station.iter().all(|x| x.is_finite()) && station.iter().any(|&x| x != 0.0);
        lawful.then_some(station)
    }

    /// Places for windows that a call needs: half the samples, rounded up.
    pub fn places(&self) -> usize {
        self.samples.div_ceil(2)
    }
}

fn dot(a: Vector, b: Vector) -> f64 {
    a[0] * b[0] + a[1] * b[1] + a[2] * b[2]
}

/// 01's Greenwich angle at an instant.
pub fn sidereal_angle(instant: u64) -> f64 {
    instant::gstime(instant::epoch_days(instant as i64) + 2433281.5)
}

/// The rotation from a state's frame into the Earth-fixed one.
pub fn rotation<E: Elementary>(angle: f64) -> [Vector; 3] {
    let (s, c) = E::sin_cos(angle);
    [[c, s, 0.0], [-s, c, 0.0], [0.0, 0.0, 1.0]]
}

pub fn earth_fixed<E: Elementary>(position: Vector, instant: u64) -> Vector {
    rotation::<E>(sidereal_angle(instant)).map(|row| dot(row, position))
}

/// Satellite minus station, times the station's position; both Earth-fixed.
pub fn above(satellite: Vector, station: Vector) -> f64 {
    let away = [satellite[0] - station[0], satellite[1] - station[1], satellite[2] - station[2]];
    dot(away, station)
}

/// A row's state, visible from a station at an instant; a refused row is not.
pub fn is_visible<E: Elementary>(row: &Row, instant: u64, station: Vector) -> bool {
    row.refusal == 0 && above(earth_fixed::<E>(row.r, instant), station) > 0.0
}

/// The runs of visible samples: the first and the last instant of each; how many.
pub fn runs(samples: impl Iterator<Item = (u64, bool)>, firsts: &mut [u64], lasts: &mut [u64]) -> usize {
    let (mut count, mut running) = (0, false);
    for (instant, visible) in samples {
        if visible && !running {
            firsts[count] = instant;
            count += 1;
        }
        if visible {
            lasts[count - 1] = instant;
        }
        running = visible;
    }
    count
}

/// The windows of a satellite that answers times since its epoch one by one: how many, and the strides
/// of all samples; or 25, 26, 18, 17.
pub fn windows_by<E: Elementary>(
    watch: &Watch,
    epoch: u64,
    firsts: &mut [u64],
    lasts: &mut [u64],
    mut one: impl FnMut(i64) -> (Row, u64),
) -> Result<(usize, u64), u8> {
    let station = watch.place().ok_or(25)?;
    if watch.step == 0 || watch.step > STEP_LIMIT {
        return Err(26);
    }
    if watch.samples > SAMPLE_LIMIT {
        return Err(18);
    }
    if firsts.len().min(lasts.len()) < watch.places() {
        return Err(17);
    }
    let mut sum = 0;
    let samples = (0..watch.samples).map(|sample| match inside(watch.instant(sample)) {
        // The row is refused with 6, and nobody is asked.
        None => (u64::MAX, false),
        Some(instant) => {
            let (row, strides) = one(since(instant, epoch));
            sum += strides;
            (instant, is_visible::<E>(&row, instant, station))
        }
    });
    let count = runs(samples, firsts, lasts);
    Ok((count, sum))
}

/// An instant of the calendar.
pub fn inside(instant: u128) -> Option<u64> {
    (instant < END as u128).then_some(instant as u64)
}

/// The time from any epoch to an instant; one that is no i64 becomes the farthest, which is refused too.
pub fn since(instant: u64, epoch: u64) -> i64 {
    let apart = instant as i128 - epoch as i128;
    apart.clamp(i64::MIN as i128, i64::MAX as i128) as i64
}

#[cfg(test)]
mod tests {
    use super::*;
    use crate::elementary::{Document, PI};
    use crate::instant::DAY;

    /// Every row of up to ten samples, visible or not: what wish 10 says of windows, word by word.
    #[test]
    fn runs_in_words() {
        for length in 0..=10usize {
            for pattern in 0..1u32 << length {
                let visible = |k: usize| pattern >> k & 1 == 1;
                let (mut firsts, mut lasts) = ([77; 6], [77; 6]);
                let count = runs((0..length).map(|k| (k as u64, visible(k))), &mut firsts, &mut lasts);
                assert!(count <= length.div_ceil(2));
                assert!(firsts[count..].iter().chain(&lasts[count..]).all(|&x| x == 77));
                let found: Vec<(usize, usize)> =
                    (0..count).map(|k| (firsts[k] as usize, lasts[k] as usize)).collect();
                for &(first, last) in &found {
                    assert!(first <= last && (first..=last).all(visible));
                    assert!(
                        (first == 0 || !visible(first - 1)) && (last + 1 == length || !visible(last + 1))
                    );
                }
                assert!(found.windows(2).all(|pair| pair[0].1 < pair[1].0));
                for k in 0..length {
                    let holding = found.iter().filter(|&&(first, last)| first <= k && k <= last).count();
                    assert_eq!(holding, visible(k) as usize);
                }
            }
        }
    }

    /// The Earth turns eastward: what stands still among the stars moves westward above it.
    #[test]
    fn the_frame_turns_with_the_earth() {
        let noon = 45 * 365 * DAY as u64;
        let quarter = 21_541_022_726; // a sidereal day over four
        let [x, y, z] = earth_fixed::<Document>([7000.0, 0.0, 100.0], noon);
        let later = earth_fixed::<Document>([7000.0, 0.0, 100.0], noon + quarter);
        assert_eq!(z, 100.0);
        assert!((later[0] - y).abs() < 0.01 && (later[1] + x).abs() < 0.01, "{later:?} {x} {y}");
        let angle = sidereal_angle(noon);
        assert!((0.0..2.0 * PI).contains(&angle));
        assert!((y.atan2(x) + angle).sin().abs() < 1e-9);
    }

    #[test]
    fn stations() {
        let station = |station: &[f64]| {
            let watch = Watch { station: station.to_vec(), start: 0, step: 1, samples: 1 };
            watch.place().is_some()
        };
        assert!(
            station(&[0.0, -0.0, 5e-324]) && station(&[f64::MAX; 3]) && station(&[1.0, 0.0, 0.0, f64::NAN])
        );
        assert!(!station(&[0.0, -0.0, 0.0]) && !station(&[1.0, f64::NAN, 0.0]) && !station(&[1.0, 1.0]));
        assert!(!station(&[f64::INFINITY, 0.0, 0.0]) && !station(&[0.0, 0.0, f64::NEG_INFINITY]));
    }

    #[test]
    fn samples_do_not_wrap() {
        let watch = Watch { station: vec![], start: u64::MAX, step: STEP_LIMIT, samples: 1024 };
        assert!(watch.instant(1) > u64::MAX as u128 && inside(watch.instant(1)).is_none());
        assert_eq!(inside(END as u128 - 1), Some(END as u64 - 1));
        assert_eq!(inside(END as u128), None);
        assert_eq!((since(5, 7), since(0, u64::MAX)), (-2, i64::MIN));
    }
}
