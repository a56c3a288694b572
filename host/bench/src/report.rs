//! The tables.

use crate::codeblocks::CodeblockTimes;
use crate::components::Component;
use crate::decoders::{libavcodec_agrees, Speeds};
use crate::exact::{ExactTimes, LargeAndSmall};
use crate::refusals::Call;
use crate::slices::Sliced;
use std::fmt::{self, Display, Formatter};

/// The columns that name a component.
pub const HEAD: [&str; 5] = ["size", "depth", "wavelet", "index", "bits a sample"];

/// The cells that name a component.
pub fn head_cells(component: &Component) -> Vec<String> {
    let p = &component.parameters;
    let intra = if p.intra { "" } else { ", not intra" };
    vec![
        format!("{} x {}", p.width, p.height),
        p.depth.to_string(),
        format!("{}{intra}", p.wavelet),
        component.index.to_string(),
        format!("{:.2}", component.bits_a_sample()),
    ]
}

/// One component and how fast every decoder was on it.
#[derive(Clone)]
pub struct Row {
    head: Vec<String>,
    wavelet: u32,
    intra: bool,
    speeds: Speeds,
}

impl Row {
    /// The row of a component.
    pub fn new(component: &Component, speeds: Speeds) -> Row {
        Row {
            head: head_cells(component),
            wavelet: component.parameters.wavelet,
            intra: component.parameters.intra,
            speeds,
        }
    }

    /// The row of a low delay picture.
    pub fn of_slices(sliced: &Sliced, speeds: Speeds) -> Row {
        Row {
            head: slice_head_cells(sliced),
            wavelet: sliced.picture.wavelet,
            intra: true,
            speeds,
        }
    }
}

/// The columns that name a low delay picture.
pub const SLICE_HEAD: [&str; 7] = [
    "size",
    "chroma",
    "depth",
    "wavelet",
    "a slice",
    "slices",
    "bits a sample",
];

/// The cells that name a low delay picture.
pub fn slice_head_cells(sliced: &Sliced) -> Vec<String> {
    let plan = &sliced.plan;
    vec![
        format!("{} x {}", plan.size.0, plan.size.1),
        plan.chroma.name().to_string(),
        plan.depth.to_string(),
        sliced.picture.wavelet.to_string(),
        format!("{} x {}", plan.slice.0, plan.slice.1),
        sliced.slices(),
        format!("{:.2}", sliced.bits_a_sample()),
    ]
}

/// Unpack of a picture in slices, beside unpack of the same numbers in one.
pub struct GrowthRow {
    cells: [String; 3],
    nanoseconds: f64,
    one: f64,
}

impl GrowthRow {
    /// The row of a picture, whose time is given with that of one slice.
    pub fn new(sliced: &Sliced, nanoseconds: f64, one: f64) -> GrowthRow {
        let p = &sliced.picture.parameters;
        let samples_of_slice = sliced.samples() / p.slice_count();
        GrowthRow {
            cells: [
                sliced.slices(),
                samples_of_slice.to_string(),
                p.numerator.to_string(),
            ],
            nanoseconds,
            one,
        }
    }
}

/// The rows of all tables.
pub struct Report {
    /// Each wavelet at each rate, beside the reference.
    pub wavelets: Vec<Row>,
    /// One wavelet at one rate, from small to large.
    pub sizes: Vec<Row>,
    /// One wavelet at one size, from few bits to many.
    pub rates: Vec<Row>,
    /// One wavelet at one size and index, from one codeblock to many.
    pub codeblocks: Vec<CodeblockRow>,
    /// Low delay pictures.
    pub slices: Vec<Row>,
    /// One low delay picture, from one slice to many.
    pub growth: Vec<GrowthRow>,
    pub exact: Vec<ExactRow>,
    pub refusals: Vec<RefusalRow>,
}

/// Unpack and decode of a component in codeblocks, beside unpack of the same in one.
pub struct CodeblockRow {
    head: Vec<String>,
    times: CodeblockTimes,
    one: CodeblockTimes,
}

impl CodeblockRow {
    /// The row of a component, whose times are given with those of one codeblock.
    pub fn new(component: &Component, times: CodeblockTimes, one: CodeblockTimes) -> CodeblockRow {
        let zeros = if component.codeblocks.flag_zeros {
            "flagged"
        } else {
            "written out"
        };
        let mut head = head_cells(component);
        head.extend([component.codeblocks.to_string(), zeros.to_string()]);
        CodeblockRow { head, times, one }
    }
}

/// Synthesise on large numbers and on small ones.
pub struct ExactRow {
    wavelet: u32,
    largest: [u32; 2],
    large_rows: f64,
    times: ExactTimes,
}

impl ExactRow {
    /// The row of both.
    pub fn new(both: &LargeAndSmall, times: ExactTimes) -> ExactRow {
        ExactRow {
            wavelet: both.wavelet(),
            largest: both.largest(),
            large_rows: both.large_rows(),
            times,
        }
    }
}

/// A call that is refused, or accepted for comparison.
pub struct RefusalRow {
    cells: [String; 3],
    microseconds: f64,
}

impl RefusalRow {
    /// The row of a call.
    pub fn new(call: &Call, microseconds: f64) -> RefusalRow {
        let status = call.answer.status.to_string();
        RefusalRow {
            cells: [call.job.name().to_string(), status, call.place.to_string()],
            microseconds,
        }
    }
}

/// The columns of the table of all decoders.
const DECODERS: [&str; 8] = [
    "unpack",
    "synthesise",
    "decode",
    "FFmpeg SIMD",
    "FFmpeg C",
    "decode / FFmpeg SIMD",
    "decode / FFmpeg C",
    "decode / reference",
];

/// The columns of the table of the reference's jobs.
const REFERENCE_JOBS: [&str; 5] = [
    "reference unpack",
    "reference synthesise",
    "reference decode",
    "unpack / reference",
    "synthesise / reference",
];

/// The columns of the tables of times.
const TIMES: [&str; 3] = ["unpack", "synthesise", "decode"];

/// The columns of the tables of times beside libavcodec.
const TIMES_BESIDE: [&str; 3] = ["FFmpeg SIMD", "FFmpeg C", "decode / FFmpeg SIMD"];

/// The columns of the table of many codeblocks, after those that name a component.
const CODEBLOCKS: [&str; 5] = [
    "codeblocks",
    "zero codeblocks",
    "unpack",
    "decode",
    "unpack / unpack of 1 x 1",
];

/// The columns of the table of ever more slices.
const GROWTH: [&str; 5] = [
    "slices",
    "samples a slice",
    "bytes a slice",
    "unpack",
    "unpack / unpack of 1 x 1",
];

/// The columns of the table of large numbers.
const EXACT: [&str; 7] = [
    "wavelet",
    "largest number",
    "rows past 32 bits",
    "large",
    "largest small number",
    "small",
    "large / small",
];

/// The columns of the table of refusals.
const REFUSALS: [&str; 4] = ["job", "status", "where", "microseconds a call"];

/// libavcodec's speeds with SIMD code and in plain C, each as a cell shows it, or that it is missing or
/// takes no part.
fn libavcodec_cells(row: &Row, cell: fn(f64) -> String) -> [String; 2] {
    match row.speeds.libavcodec {
        Some(speeds) if libavcodec_agrees(row.wavelet) => speeds.map(cell),
        Some(speeds) => speeds.map(|speed| cell(speed) + " *"),
        None if !row.intra => [(); 2].map(|_| "-".to_string()),
        None => [(); 2].map(|_| "not installed".to_string()),
    }
}

/// Decode's speed beside libavcodec's with SIMD code and in plain C.
fn libavcodec_ratios(row: &Row) -> [String; 2] {
    match row.speeds.libavcodec {
        Some(speeds) => speeds.map(|speed| figure(row.speeds.proved.decode / speed)),
        None => [(); 2].map(|_| "-".to_string()),
    }
}

/// A ratio to a speed of the reference, if it took part.
fn reference_ratio(ours: f64, theirs: Option<f64>) -> String {
    theirs.map_or("-".to_string(), |theirs| figure(ours / theirs))
}

/// The figures of a row beside libavcodec and the reference.
fn decoder_cells(row: &Row) -> Vec<String> {
    let proved = row.speeds.proved;
    let reference = row.speeds.reference;
    let speeds = [proved.unpack, proved.synthesise, proved.decode].map(figure);
    let mut cells = speeds.to_vec();
    cells.extend(libavcodec_cells(row, figure));
    cells.extend(libavcodec_ratios(row));
    cells.push(reference_ratio(proved.decode, reference.map(|r| r.decode)));
    cells
}

/// The figures of the reference's jobs.
fn reference_cells(row: &Row) -> Vec<String> {
    let proved = row.speeds.proved;
    let Some(reference) = row.speeds.reference else {
        return vec!["-".to_string(); REFERENCE_JOBS.len()];
    };
    [
        reference.unpack,
        reference.synthesise,
        reference.decode,
        proved.unpack / reference.unpack,
        proved.synthesise / reference.synthesise,
    ]
    .map(figure)
    .to_vec()
}

/// Nanoseconds with two digits after the point, or one from 10 on.
fn time_figure(nanoseconds: f64) -> String {
    let digits = if nanoseconds < 10.0 { 2 } else { 1 };
    format!("{nanoseconds:.digits$}")
}

/// Nanoseconds a sample at a speed in megasamples a second.
fn time_cell(speed: f64) -> String {
    time_figure(1e3 / speed)
}

/// Nanoseconds a sample of each job.
fn time_cells(row: &Row) -> Vec<String> {
    let proved = row.speeds.proved;
    let speeds = [proved.unpack, proved.synthesise, proved.decode];
    speeds.map(time_cell).to_vec()
}

/// The same, and beside libavcodec.
fn time_cells_beside(row: &Row) -> Vec<String> {
    let mut cells = time_cells(row);
    cells.extend(libavcodec_cells(row, time_cell));
    cells.extend(libavcodec_ratios(row).into_iter().take(1));
    cells
}

/// The cells of a row of many codeblocks.
fn codeblock_cells(row: &CodeblockRow) -> Vec<String> {
    let CodeblockTimes { unpack, decode } = row.times;
    let figures = [
        time_figure(unpack),
        time_figure(decode),
        figure(unpack / row.one.unpack),
    ];
    [&row.head[..], &figures].concat()
}

/// The cells of a row of ever more slices.
fn growth_cells(row: &GrowthRow) -> Vec<String> {
    let figures = [
        time_figure(row.nanoseconds),
        figure(row.nanoseconds / row.one),
    ];
    [&row.cells[..], &figures].concat()
}

/// The cells of a row of large numbers.
fn exact_cells(row: &ExactRow) -> Vec<String> {
    let [largest, largest_small] = row.largest;
    let ExactTimes { large, small } = row.times;
    vec![
        row.wavelet.to_string(),
        largest.to_string(),
        format!("{:.0} %", row.large_rows),
        time_figure(large),
        largest_small.to_string(),
        time_figure(small),
        figure(large / small),
    ]
}

/// The cells of a row of refusals.
fn refusal_cells(row: &RefusalRow) -> Vec<String> {
    let mut cells = row.cells.to_vec();
    cells.push(figure(row.microseconds));
    cells
}

/// A number with two digits and more.
pub fn figure(value: f64) -> String {
    if value < 0.1 {
        format!("{value:.3}")
    } else if value < 10.0 {
        format!("{value:.2}")
    } else {
        format!("{value:.0}")
    }
}

/// Writes a table: its title, its columns, and each row's cells.
pub fn write_table<R>(
    f: &mut Formatter,
    title: &str,
    columns: &[&str],
    rows: &[R],
    cells: impl Fn(&R) -> Vec<String>,
) -> fmt::Result {
    writeln!(f, "{title}\n")?;
    writeln!(f, "| {} |", columns.join(" | "))?;
    writeln!(f, "{}|", "|---".repeat(columns.len()))?;
    for row in rows {
        writeln!(f, "| {} |", cells(row).join(" | "))?;
    }
    Ok(())
}

/// The columns of a table of components: those that name a row, and then these.
fn with_head(columns: &[&'static str]) -> Vec<&'static str> {
    [&HEAD, columns].concat()
}

/// Writes a table of rows: their cells come after those that name a row.
fn write_rows(
    f: &mut Formatter,
    title: &str,
    rows: &[Row],
    columns: &[&str],
    cells: fn(&Row) -> Vec<String>,
) -> fmt::Result {
    write_table(f, title, columns, rows, |row| {
        [row.head.clone(), cells(row)].concat()
    })
}

impl Display for Report {
    fn fmt(&self, f: &mut Formatter) -> fmt::Result {
        let title = "Megasamples a second, and ratios of decode.\n\
            An asterisk: its samples are not document 01's, so they were not checked.";
        write_rows(
            f,
            title,
            &self.wavelets,
            &with_head(&DECODERS),
            decoder_cells,
        )?;
        let title = "\nThe reference beside it, and ratios of the other jobs.";
        write_rows(
            f,
            title,
            &self.wavelets,
            &with_head(&REFERENCE_JOBS),
            reference_cells,
        )?;
        let title = "\nEach job alone: nanoseconds a sample.";
        write_rows(f, title, &self.wavelets, &with_head(&TIMES), time_cells)?;
        let beside = [TIMES, TIMES_BESIDE].concat();
        let title = "\nFrom small pictures to large ones: nanoseconds a sample.";
        write_rows(
            f,
            title,
            &self.sizes,
            &with_head(&beside),
            time_cells_beside,
        )?;
        let title = "\nFrom few bits to many: nanoseconds a sample.";
        write_rows(
            f,
            title,
            &self.rates,
            &with_head(&beside),
            time_cells_beside,
        )?;
        let columns = with_head(&CODEBLOCKS);
        let title = "\nMany codeblocks at every level: nanoseconds a sample.";
        write_table(f, title, &columns, &self.codeblocks, codeblock_cells)?;
        let title = "\nLow delay pictures, all three components: nanoseconds a sample.";
        let columns = [&SLICE_HEAD[..], &beside].concat();
        write_rows(f, title, &self.slices, &columns, time_cells_beside)?;
        let title = "\nThe same numbers in ever more slices: nanoseconds a sample.";
        write_table(f, title, &GROWTH, &self.growth, growth_cells)?;
        let title = "\nSynthesise of large numbers, beside small ones: nanoseconds a sample.";
        write_table(f, title, &EXACT, &self.exact, exact_cells)?;
        let title = "\nWhat a refusal costs.";
        write_table(f, title, &REFUSALS, &self.refusals, refusal_cells)
    }
}
