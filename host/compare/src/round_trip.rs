//! Round trips: the reference analyses a plane, the proved library synthesises it again.
//!
//! Wherever every number that analysis assigns fits 32 bits, synthesis must be accepted and give the
//! plane back (document 01, "Synthesis and analysis").

use crate::check::proved_parameters;
use crate::parameters::random_parameters;
use crate::planes::number_of_bits;
use crate::work::Tally;
use reference::params::{padded_area, padded_height, padded_width, sample_area};
use reference::Parameters;
use std::fmt;
use vectors::random::Random;

/// A padded plane to analyse.
#[derive(Clone, Debug)]
pub struct RoundTrip {
    pub parameters: Parameters,
    pub plane: Vec<i32>,
}

impl RoundTrip {
    /// The round trip that a seed names: noise, or a constant with a little noise, of any magnitude.
    pub fn from_seed(seed: u64) -> RoundTrip {
        let mut random = Random::new(seed);
        let parameters = random_parameters(&mut random, 0);
        let bits = random.range(1, 32);
        let constant = if random.flag() {
            number_of_bits(&mut random, bits)
        } else {
            0
        };
        let noise = if constant == 0 {
            bits
        } else {
            random.range(1, bits)
        };
        let plane = (0..padded_area(&parameters))
            .map(|_| constant.saturating_add(number_of_bits(&mut random, noise)))
            .collect();
        RoundTrip { parameters, plane }
    }

    /// Analyses the plane and has the proved library synthesise it: whether analysis fitted 32 bits, and
    /// so the plane came back; or what is wrong.
    pub fn run(&self) -> Result<bool, String> {
        let p = &self.parameters;
        let wide: Vec<i128> = self.plane.iter().map(|&v| i128::from(v)).collect();
        let analysis = reference::analyse(p, &wide).expect("parameters in range");
        if !analysis.fits {
            return Ok(false);
        }
        let coefficients: Vec<i32> = analysis
            .coefficients
            .iter()
            .map(|&c| i32::try_from(c).expect("analysis fits"))
            .collect();
        let mut work = vec![-1; padded_area(p)];
        let mut samples = vec![-1; sample_area(p)];
        kafsillun::synthesise(
            &proved_parameters(p),
            &coefficients,
            &mut work,
            &mut samples,
        )
        .map_err(|error| format!("synthesis of an analysis that fits is {error}"))?;
        if work.iter().any(|&entry| entry != 0) {
            return Err("work is not all zeros".to_string());
        }
        match samples
            .iter()
            .zip(self.cropped())
            .position(|(a, b)| *a != b)
        {
            None => Ok(true),
            Some(index) => Err(format!("sample {index} did not come back")),
        }
    }

    /// The plane without its padding.
    fn cropped(&self) -> impl Iterator<Item = i32> + '_ {
        let p = &self.parameters;
        self.plane
            .chunks(padded_width(p))
            .take(p.height as usize)
            .flat_map(|row| &row[..p.width as usize])
            .copied()
    }

    /// The bits of the plane's largest number, sign included.
    fn bits(&self) -> u32 {
        let magnitude = |v: &i32| if *v < 0 { !*v } else { *v };
        let largest = self.plane.iter().map(magnitude).max().unwrap_or(0);
        33 - largest.leading_zeros()
    }

    /// Which of [`SIZES`] it is.
    fn size_class(&self) -> usize {
        let p = &self.parameters;
        let padded = (padded_width(p), padded_height(p)) != (p.width as usize, p.height as usize);
        match (p.width, p.height) {
            (1, 1) => 0,
            (_, 1) => 1,
            (1, _) => 2,
            _ if padded => 3,
            _ => 4,
        }
    }
}

/// The classes of sizes.
const SIZES: [&str; 5] = [
    "one sample",
    "one row",
    "one column",
    "padded",
    "not padded",
];

/// The planes that came back, by wavelet and depth, size and magnitude.
#[derive(Clone, Debug, Default, PartialEq, Eq)]
pub struct RoundTrips {
    tried: u64,
    came_back: u64,
    by_filter: [[u64; 5]; 7],
    by_size: [u64; SIZES.len()],
    /// Those with numbers of 24 bits or more.
    large: u64,
}

impl RoundTrips {
    /// Adds a round trip, which came back or had an analysis that doesn't fit.
    pub fn add(&mut self, trip: &RoundTrip, came_back: bool) {
        self.tried += 1;
        if came_back {
            let p = &trip.parameters;
            self.came_back += 1;
            self.by_filter[p.wavelet as usize][p.depth as usize] += 1;
            self.by_size[trip.size_class()] += 1;
            self.large += u64::from(trip.bits() >= 24);
        }
    }
}

impl Tally for RoundTrips {
    /// One of so many planes must be of each wavelet and depth, of each size, and large.
    const ONE_IN: u64 = 500;

    fn merge(&mut self, other: &RoundTrips) {
        self.tried += other.tried;
        self.came_back += other.came_back;
        self.large += other.large;
        let counts = self.by_filter.iter_mut().flatten().chain(&mut self.by_size);
        let others = other.by_filter.iter().flatten().chain(&other.by_size);
        for (count, other) in counts.zip(others) {
            *count += other;
        }
    }

    /// What came back less often than demanded, a line each.
    fn too_rare(&self) -> Vec<String> {
        let mut counts = vec![("numbers of 24 bits or more".to_string(), self.large)];
        for (size, count) in SIZES.iter().zip(self.by_size) {
            counts.push((size.to_string(), count));
        }
        for (wavelet, row) in self.by_filter.iter().enumerate() {
            for (depth, &count) in row.iter().enumerate() {
                counts.push((format!("wavelet {wavelet}, depth {depth}"), count));
            }
        }
        counts
            .into_iter()
            .filter(|(_, count)| *count < self.tried / RoundTrips::ONE_IN)
            .map(|(name, count)| format!("{name}: {count} times"))
            .collect()
    }
}

impl fmt::Display for RoundTrips {
    fn fmt(&self, f: &mut fmt::Formatter) -> fmt::Result {
        writeln!(
            f,
            "{} planes came back; the analysis of {} others does not fit 32 bits",
            self.came_back,
            self.tried - self.came_back
        )?;
        write!(f, "{:24}", "came back")?;
        for depth in 0..5 {
            write!(f, "{:>12}", format!("depth {depth}"))?;
        }
        writeln!(f)?;
        for (wavelet, row) in self.by_filter.iter().enumerate() {
            write!(f, "{:24}", format!("wavelet {wavelet}"))?;
            for count in row {
                write!(f, "{count:>12}")?;
            }
            writeln!(f)?;
        }
        for (size, count) in SIZES.iter().zip(self.by_size) {
            writeln!(f, "{size:24}{count:>12}")?;
        }
        writeln!(f, "{:24}{:>12}", "24 bits or more", self.large)
    }
}
