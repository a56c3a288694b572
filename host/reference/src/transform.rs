//! Lifting filters, synthesis and analysis.
//!
//! States document 01, "Lifting" and "Synthesis and analysis". All numbers have 128 bits and
//! all sums are checked: a number too large even for that panics, none wraps.

use crate::params::{
    padded_height, padded_width, subband_at, Answer, Orientation, Parameters, Subband,
    SYNTHESIS_RANGE,
};

/// The four types of lifting step.
#[derive(Clone, Copy, Debug, PartialEq, Eq)]
pub enum StepType {
    /// Adds to each `A[2n]`.
    Type1,
    /// Subtracts from each `A[2n]`.
    Type2,
    /// Adds to each `A[2n+1]`.
    Type3,
    /// Subtracts from each `A[2n+1]`.
    Type4,
}

impl StepType {
    /// Whether a step of this type changes the even positions.
    pub fn changes_even(self) -> bool {
        matches!(self, StepType::Type1 | StepType::Type2)
    }

    /// Whether a step of this type adds.
    pub fn adds(self) -> bool {
        matches!(self, StepType::Type1 | StepType::Type3)
    }

    /// Types 1 and 2, 3 and 4 exchanged (document 01, "Synthesis and analysis").
    pub fn exchanged(self) -> StepType {
        match self {
            StepType::Type1 => StepType::Type2,
            StepType::Type2 => StepType::Type1,
            StepType::Type3 => StepType::Type4,
            StepType::Type4 => StepType::Type3,
        }
    }
}

/// One lifting step: type, first offset D, taps t and scale S.
#[derive(Clone, Copy, Debug)]
pub struct Step {
    pub step_type: StepType,
    pub first_offset: i64,
    pub taps: &'static [i128],
    pub scale: u32,
}

/// A filter: its steps in synthesis order, and its shift.
#[derive(Clone, Copy, Debug)]
pub struct Filter {
    pub steps: &'static [Step],
    pub shift: u32,
}

/// A step from its type, first offset, taps and scale.
const fn lifting_step(
    step_type: StepType,
    first_offset: i64,
    taps: &'static [i128],
    scale: u32,
) -> Step {
    Step {
        step_type,
        first_offset,
        taps,
        scale,
    }
}

use StepType::{Type1, Type2, Type3, Type4};

/// The seven filters (document 01, "Lifting").
#[rustfmt::skip]
pub const FILTERS: [Filter; 7] = [
    // 0: Deslauriers-Dubuc (9,7)
    Filter {
        steps: &[
            lifting_step(Type2, 0, &[1, 1], 2),
            lifting_step(Type3, -1, &[-1, 9, 9, -1], 4),
        ],
        shift: 1,
    },
    // 1: LeGall (5,3)
    Filter {
        steps: &[
            lifting_step(Type2, 0, &[1, 1], 2),
            lifting_step(Type3, 0, &[1, 1], 1),
        ],
        shift: 1,
    },
    // 2: Deslauriers-Dubuc (13,7)
    Filter {
        steps: &[
            lifting_step(Type2, -1, &[-1, 9, 9, -1], 5),
            lifting_step(Type3, -1, &[-1, 9, 9, -1], 4),
        ],
        shift: 1,
    },
    // 3: Haar without a shift
    Filter {
        steps: &[
            lifting_step(Type2, 1, &[1], 1),
            lifting_step(Type3, 0, &[1], 0),
        ],
        shift: 0,
    },
    // 4: Haar with a shift
    Filter {
        steps: &[
            lifting_step(Type2, 1, &[1], 1),
            lifting_step(Type3, 0, &[1], 0),
        ],
        shift: 1,
    },
    // 5: Fidelity
    Filter {
        steps: &[
            lifting_step(Type3, -3, &[-2, 10, -25, 81, 81, -25, 10, -2], 8),
            lifting_step(Type2, -3, &[-8, 21, -46, 161, 161, -46, 21, -8], 8),
        ],
        shift: 0,
    },
    // 6: Daubechies (9,7)
    Filter {
        steps: &[
            lifting_step(Type2, 0, &[1817, 1817], 12),
            lifting_step(Type4, 0, &[3616, 3616], 12),
            lifting_step(Type1, 0, &[217, 217], 12),
            lifting_step(Type3, 0, &[6497, 6497], 12),
        ],
        shift: 1,
    },
];

/// Whether a number fits signed 32 bits.
pub fn fits_32_bits(number: i128) -> bool {
    i32::try_from(number).is_ok()
}

/// a + b, which must fit 128 bits.
fn add(a: i128, b: i128) -> i128 {
    a.checked_add(b).expect("a sum outside 128 bits")
}

/// a - b, which must fit 128 bits.
fn subtract(a: i128, b: i128) -> i128 {
    a.checked_sub(b).expect("a difference outside 128 bits")
}

/// a b, which must fit 128 bits.
fn multiply(a: i128, b: i128) -> i128 {
    a.checked_mul(b).expect("a product outside 128 bits")
}

/// Performs one lifting step on a line of even length; answers whether every new number fits signed
/// 32 bits (document 01, "Lifting").
pub fn lift(step: &Step, line: &mut [i128]) -> bool {
    let length = line.len() as i64;
    assert!(length % 2 == 0);
    let mut all_fit = true;
    for n in 0..length / 2 {
        let mut sum = 0;
        for (k, &tap) in step.taps.iter().enumerate() {
            let i = step.first_offset + k as i64;
            let position = if step.step_type.changes_even() {
                (2 * (n + i) - 1).clamp(1, length - 1)
            } else {
                (2 * (n + i)).clamp(0, length - 2)
            };
            sum = add(sum, multiply(tap, line[position as usize]));
        }
        if step.scale > 0 {
            sum = add(sum, 1 << (step.scale - 1));
        }
        // The divisor is positive, so this rounds down.
        let change = sum.div_euclid(1 << step.scale);
        let target = if step.step_type.changes_even() {
            2 * n as usize
        } else {
            2 * n as usize + 1
        };
        line[target] = if step.step_type.adds() {
            add(line[target], change)
        } else {
            subtract(line[target], change)
        };
        all_fit &= fits_32_bits(line[target]);
    }
    all_fit
}

/// Performs steps on a line in the order given; answers whether every new number fits signed 32
/// bits (document 01, "Lifting").
pub fn filter_line(steps: &[Step], line: &mut [i128]) -> bool {
    let mut all_fit = true;
    for step in steps {
        all_fit &= lift(step, line);
    }
    all_fit
}

/// The steps of analysis: reversed, types exchanged (document 01, "Synthesis and analysis").
pub fn analysis_steps(filter: &Filter) -> Vec<Step> {
    let exchange = |step: &Step| Step {
        step_type: step.step_type.exchanged(),
        ..*step
    };
    filter.steps.iter().rev().map(exchange).collect()
}

/// floor((v + 1) / 2) (document 01, "Synthesis and analysis").
pub fn shift_down(v: i128) -> i128 {
    add(v, 1).div_euclid(2)
}

/// A rectangle of numbers in raster order.
#[derive(Clone, Debug, PartialEq, Eq)]
pub struct Grid {
    pub width: usize,
    pub height: usize,
    pub numbers: Vec<i128>,
}

impl Grid {
    /// A grid of zeros.
    pub fn new(width: usize, height: usize) -> Grid {
        Grid {
            width,
            height,
            numbers: vec![0; width * height],
        }
    }

    /// The number at a column and row.
    pub fn get(&self, x: usize, y: usize) -> i128 {
        self.numbers[y * self.width + x]
    }

    /// Changes the number at a column and row.
    pub fn set(&mut self, x: usize, y: usize, number: i128) {
        self.numbers[y * self.width + x] = number;
    }

    /// Performs steps on every row; answers whether every new number fits signed 32 bits.
    pub fn filter_rows(&mut self, steps: &[Step]) -> bool {
        let mut all_fit = true;
        for y in 0..self.height {
            let mut row: Vec<i128> = (0..self.width).map(|x| self.get(x, y)).collect();
            all_fit &= filter_line(steps, &mut row);
            for (x, &number) in row.iter().enumerate() {
                self.set(x, y, number);
            }
        }
        all_fit
    }

    /// Performs steps on every column; answers whether every new number fits signed 32 bits.
    pub fn filter_columns(&mut self, steps: &[Step]) -> bool {
        let mut all_fit = true;
        for x in 0..self.width {
            let mut column: Vec<i128> = (0..self.height).map(|y| self.get(x, y)).collect();
            all_fit &= filter_line(steps, &mut column);
            for (y, &number) in column.iter().enumerate() {
                self.set(x, y, number);
            }
        }
        all_fit
    }

    /// A subband's numbers, this grid being a coefficient plane.
    pub fn band(&self, band: &Subband) -> Grid {
        let mut numbers = Grid::new(band.width, band.height);
        for y in 0..band.height {
            for x in 0..band.width {
                numbers.set(x, y, self.get(band.left + x, band.top + y));
            }
        }
        numbers
    }

    /// Puts a subband's numbers into this grid, a coefficient plane.
    fn set_subband(&mut self, band: &Subband, numbers: &Grid) {
        for y in 0..band.height {
            for x in 0..band.width {
                self.set(band.left + x, band.top + y, numbers.get(x, y));
            }
        }
    }
}

/// Four subbands interleaved (document 01, "Synthesis and analysis").
pub fn interleave(ll: &Grid, hl: &Grid, lh: &Grid, hh: &Grid) -> Grid {
    let mut picture = Grid::new(2 * ll.width, 2 * ll.height);
    for y in 0..ll.height {
        for x in 0..ll.width {
            picture.set(2 * x, 2 * y, ll.get(x, y));
            picture.set(2 * x + 1, 2 * y, hl.get(x, y));
            picture.set(2 * x, 2 * y + 1, lh.get(x, y));
            picture.set(2 * x + 1, 2 * y + 1, hh.get(x, y));
        }
    }
    picture
}

/// The numbers at every second column and row, from a first column and row on.
fn every_second(picture: &Grid, first_x: usize, first_y: usize) -> Grid {
    let mut band = Grid::new(picture.width / 2, picture.height / 2);
    for y in 0..band.height {
        for x in 0..band.width {
            band.set(x, y, picture.get(2 * x + first_x, 2 * y + first_y));
        }
    }
    band
}

/// The picture of depth n, or status 10 at the first level with a number that doesn't fit; the
/// parameters must be in range (document 01, "Synthesis and analysis").
fn picture_of_depth(p: &Parameters, coefficients: &Grid, n: u32) -> Result<Grid, Answer> {
    let band = |orientation| coefficients.band(&subband_at(p, n, orientation));
    if n == 0 {
        return Ok(band(Orientation::LL));
    }
    let ll = picture_of_depth(p, coefficients, n - 1)?;
    let (hl, lh, hh) = (
        band(Orientation::HL),
        band(Orientation::LH),
        band(Orientation::HH),
    );
    let filter = &FILTERS[p.wavelet as usize];
    let mut picture = interleave(&ll, &hl, &lh, &hh);
    let mut all_fit = true;
    all_fit &= picture.filter_columns(filter.steps);
    all_fit &= picture.filter_rows(filter.steps);
    if filter.shift == 1 {
        for number in &mut picture.numbers {
            *number = shift_down(*number);
            all_fit &= fits_32_bits(*number);
        }
    }
    if all_fit {
        Ok(picture)
    } else {
        Err(Answer::refused(SYNTHESIS_RANGE, u64::from(n)))
    }
}

/// The samples of a coefficient plane, or refusal 10; the parameters and the plane's length must be
/// right (document 01, "Synthesis and analysis").
pub fn synthesise_plane(p: &Parameters, coefficients: &[i32]) -> Result<Vec<i32>, Answer> {
    let plane = Grid {
        width: padded_width(p),
        height: padded_height(p),
        numbers: coefficients.iter().map(|&c| i128::from(c)).collect(),
    };
    let picture = picture_of_depth(p, &plane, p.depth)?;
    let mut samples = Vec::new();
    for y in 0..p.height as usize {
        for x in 0..p.width as usize {
            samples.push(i32::try_from(picture.get(x, y)).expect("checked at every level"));
        }
    }
    Ok(samples)
}

/// What analysis gives.
#[derive(Clone, Debug, PartialEq, Eq)]
pub struct Analysis {
    /// The coefficients, laid out as in the coefficient plane.
    pub coefficients: Vec<i128>,
    /// Whether every number analysis assigned fits signed 32 bits.
    pub fits: bool,
}

/// The analysis of a padded plane; the parameters and the plane's length must be right (document
/// 01, "Synthesis and analysis").
pub fn analyse_plane(p: &Parameters, plane: &[i128]) -> Analysis {
    let filter = &FILTERS[p.wavelet as usize];
    let steps = analysis_steps(filter);
    let mut coefficients = Grid::new(padded_width(p), padded_height(p));
    let mut picture = Grid {
        width: padded_width(p),
        height: padded_height(p),
        numbers: plane.to_vec(),
    };
    let mut fits = true;
    for level in (1..=p.depth).rev() {
        for number in &mut picture.numbers {
            *number = multiply(*number, 1 << filter.shift);
            fits &= fits_32_bits(*number);
        }
        fits &= picture.filter_rows(&steps);
        fits &= picture.filter_columns(&steps);
        let hl = every_second(&picture, 1, 0);
        let lh = every_second(&picture, 0, 1);
        let hh = every_second(&picture, 1, 1);
        coefficients.set_subband(&subband_at(p, level, Orientation::HL), &hl);
        coefficients.set_subband(&subband_at(p, level, Orientation::LH), &lh);
        coefficients.set_subband(&subband_at(p, level, Orientation::HH), &hh);
        picture = every_second(&picture, 0, 0);
    }
    coefficients.set_subband(&subband_at(p, 0, Orientation::LL), &picture);
    Analysis {
        coefficients: coefficients.numbers,
        fits,
    }
}
