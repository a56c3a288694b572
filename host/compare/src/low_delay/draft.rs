//! A picture that is being written: its numbers, its slices, and how many bytes they have.

use super::parameters::{random_fraction, subbands_of};
use crate::borders::put_runs;
use crate::scale::Scale;
use reference::encode_low_delay::code_bits;
use reference::low_delay::bits_for_values;
use reference::params::{padded_area, padded_width, MAX_QUANTISER};
use reference::{encode_low_delay, LowDelay, SliceOptions, SlicedPicture};
use vectors::random::Random;

/// The most bytes of a slice that is made.
pub const MOST_BYTES: usize = 65_535;

/// The numbers of a picture, and how each slice is written. Its fraction of bytes is 1 until it is chosen.
pub struct Draft {
    pub parameters: LowDelay,
    pub planes: [Vec<i64>; 3],
    pub slices: Vec<SliceOptions>,
}

/// The component of the first part of a slice.
pub const LUMA: &[usize] = &[0];

/// The components of the second part of a slice.
const CHROMA: &[usize] = &[1, 2];

/// A position of a component that a slice has.
#[derive(Clone, Copy, Debug)]
pub struct Position {
    pub component: usize,
    pub subband: usize,
    /// The index in the component's plane.
    pub entry: usize,
}

impl Draft {
    /// A picture of zeros, the slices' indices chosen by a function.
    pub fn new(
        random: &mut Random,
        picture: SlicedPicture,
        mut index: impl FnMut(&mut Random) -> u32,
    ) -> Draft {
        let planes = picture
            .components()
            .map(|component| vec![0; padded_area(&component)]);
        let slices = (0..picture.slice_count())
            .map(|_| SliceOptions {
                index: index(random),
                luma_length: None,
                fill: random.flag(),
                drop_trailing_ones: random.flag(),
            })
            .collect();
        Draft {
            parameters: LowDelay {
                picture,
                numerator: 1,
                denominator: 1,
            },
            planes,
            slices,
        }
    }

    /// The positions of one component that a slice has, in reading order.
    pub fn positions(&self, slice: usize, component: usize) -> Vec<Position> {
        let picture = &self.parameters.picture;
        let row_width = padded_width(&picture.components()[component]);
        let mut positions = Vec::new();
        for (subband, band) in subbands_of(picture, component).iter().enumerate() {
            let (columns, rows) = picture.rectangle(band, slice);
            for y in rows {
                let start = (band.top + y) * row_width + band.left;
                positions.extend(columns.clone().map(|x| Position {
                    component,
                    subband,
                    entry: start + x,
                }));
            }
        }
        positions
    }

    /// The positions of the components that share a part of a slice, luma's alone or those of C1 and C2 in turn.
    fn part_positions(&self, slice: usize, part: &[usize]) -> Vec<Position> {
        let of_each: Vec<Vec<Position>> = part
            .iter()
            .map(|&component| self.positions(slice, component))
            .collect();
        (0..of_each[0].len())
            .flat_map(|k| of_each.iter().map(move |positions| positions[k]))
            .collect()
    }

    /// Fills each part of each slice with runs of zeros and numbers of a kind between them.
    pub fn fill_runs(&mut self, random: &mut Random, number: fn(&mut Random) -> i64) {
        for slice in 0..self.slices.len() {
            for part in [LUMA, CHROMA] {
                let positions = self.part_positions(slice, part);
                let order: Vec<usize> = (0..positions.len()).collect();
                let mut numbers = vec![0; positions.len()];
                put_runs(random, &order, &mut numbers, number);
                for (position, number) in positions.iter().zip(numbers) {
                    self.planes[position.component][position.entry] = number;
                }
            }
        }
    }

    /// What the numbers of a subband are dequantised by in a slice; of an index that is refused, the largest that
    /// is not.
    pub fn scale(&self, slice: usize, subband: usize) -> Scale {
        let picture = &self.parameters.picture;
        let index = self.slices[slice].index;
        Scale {
            index: index
                .saturating_sub(picture.matrix[subband])
                .min(MAX_QUANTISER as u32),
            intra: picture.intra,
        }
    }

    /// Whether the numbers of a subband are predicted.
    pub fn is_predicted(&self, subband: usize) -> bool {
        self.parameters.picture.intra && subband == 0
    }

    /// Gives each position a number, by the scale of its subband in its slice and whether it is predicted.
    pub fn fill(&mut self, random: &mut Random, number: impl Fn(&mut Random, Scale, bool) -> i64) {
        for slice in 0..self.slices.len() {
            for component in 0..3 {
                for position in self.positions(slice, component) {
                    let Position { subband, entry, .. } = position;
                    let scale = self.scale(slice, subband);
                    self.planes[component][entry] =
                        number(random, scale, self.is_predicted(subband));
                }
            }
        }
    }

    /// Gives positions that are not predicted a number of a kind, so many of 16, and all others 0.
    pub fn fill_sparse(
        &mut self,
        random: &mut Random,
        density: i64,
        number: impl Fn(&mut Random, Scale) -> i64,
    ) {
        self.fill(random, |random, scale, is_predicted| {
            if !is_predicted && random.range(1, 16) <= density {
                number(random, scale)
            } else {
                0
            }
        });
    }

    /// Some position of a slice, in any component that has one there.
    pub fn random_position(&self, random: &mut Random, slice: usize) -> Option<Position> {
        let first = random.range(0, 2) as usize;
        (0..3)
            .map(|k| self.positions(slice, (first + k) % 3))
            .find(|positions| !positions.is_empty())
            .map(|positions| random.pick(&positions))
    }

    /// Puts a number of a kind at some position of a slice, if it has one. In a subband that is predicted it is the
    /// only one, so that prediction refuses none that fits.
    pub fn put(
        &mut self,
        random: &mut Random,
        slice: usize,
        number: impl Fn(&mut Random, Scale) -> i64,
    ) {
        let Some(position) = self.random_position(random, slice) else {
            return;
        };
        let Position {
            component,
            subband,
            entry,
        } = position;
        if self.is_predicted(subband) {
            for slice in 0..self.slices.len() {
                for other in self.positions(slice, component) {
                    if other.subband == subband {
                        self.planes[component][other.entry] = 0;
                    }
                }
            }
        }
        self.planes[component][entry] = number(random, self.scale(slice, subband));
    }

    /// Some slice.
    pub fn random_slice(&self, random: &mut Random) -> usize {
        random.range(0, self.slices.len() as i64 - 1) as usize
    }

    /// The bits of the codes of some components in a slice.
    pub fn code_bits(&self, slice: usize, components: &[usize]) -> usize {
        components
            .iter()
            .flat_map(|&component| self.positions(slice, component))
            .map(|position| code_bits(self.planes[position.component][position.entry]).0)
            .sum()
    }

    /// The least bytes with which every slice has room for its codes.
    pub fn needed_bytes(&self) -> usize {
        let bits = (0..self.slices.len()).map(|slice| self.code_bits(slice, &[0, 1, 2]));
        let bits = bits.max().expect("there is a slice");
        (1 + bits / 8..MOST_BYTES)
            .find(|&bytes| bits_for_values(bytes) >= bits)
            .unwrap_or(MOST_BYTES)
    }

    /// Gives each slice so many bytes, or some of them one more.
    pub fn set_bytes(&mut self, random: &mut Random, bytes: usize) {
        let (numerator, denominator) = random_fraction(random, bytes);
        self.parameters.numerator = numerator;
        self.parameters.denominator = denominator;
    }

    /// Gives each slice room for its codes, and up to two bytes more.
    pub fn set_enough_bytes(&mut self, random: &mut Random) {
        let bytes = self.needed_bytes() + random.pick(&[0, 0, 0, 1, 2]);
        self.set_bytes(random, bytes);
    }

    /// The bytes of a slice.
    pub fn slice_bytes(&self, slice: usize) -> usize {
        self.parameters.slice_range(slice).len()
    }

    /// The parameters and the bytes.
    pub fn finish(self) -> (LowDelay, Vec<u8>) {
        let [luma, first_chroma, second_chroma] = &self.planes;
        let bytes = encode_low_delay(
            &self.parameters,
            luma,
            first_chroma,
            second_chroma,
            &self.slices,
        );
        (self.parameters, bytes)
    }
}
