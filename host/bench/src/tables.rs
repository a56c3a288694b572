//! What goes into which table, and the passes over all of it.

use crate::codeblocks::{self, CodeblockTimes};
use crate::components::{
    Codeblocks, Component, Plan, Rate, COUNTED_CODEBLOCKS, COUNTED_SIZE, FULL_SIZE,
    MANY_CODEBLOCKS, MANY_CODEBLOCKS_RATE, NOT_INTRA_RATE, ONE_WAVELET, OTHER_RATES, OTHER_SIZES,
    RATES, WAVELETS,
};
use crate::decoders::{check, measure, Effort, Speeds};
use crate::exact::{ExactTimes, LargeAndSmall};
use crate::refusals::{self, Call};
use crate::report::{CodeblockRow, ExactRow, GrowthRow, RefusalRow, Report, Row};
use crate::slices::{self, counted_plans, full_plans, growing, SlicePlan, Sliced};

/// The components of a plan, checked; or which decoders differ on one. The reference's other jobs are
/// checked if asked to.
fn checked(
    plan: Plan,
    rates: &[Rate],
    other_reference_jobs: bool,
) -> Result<Vec<Component>, String> {
    eprintln!("encoding and checking: {plan}");
    let components = Component::of(plan, rates);
    for component in &components {
        let index = component.index;
        check(component, other_reference_jobs)
            .map_err(|what| format!("{plan}, index {index}: {what}"))?;
    }
    Ok(components)
}

/// Components of a size, checked: each wavelet at each rate, and one that is not intra; or which decoders
/// differ on one.
fn of_wavelets(size: (u32, u32), other_reference_jobs: bool) -> Result<Vec<Component>, String> {
    let mut components = Vec::new();
    for wavelet in WAVELETS {
        let plan = Plan::new(size, wavelet);
        for rate in RATES {
            components.extend(checked(plan, &[rate], other_reference_jobs)?);
            if wavelet == ONE_WAVELET && rate == NOT_INTRA_RATE {
                let plan = Plan {
                    intra: false,
                    ..plan
                };
                components.extend(checked(plan, &[rate], other_reference_jobs)?);
            }
        }
    }
    Ok(components)
}

/// A component of a size for each of these codeblocks, checked; or which decoders differ on one.
fn in_codeblocks(size: (u32, u32), all: &[Codeblocks]) -> Result<Vec<Component>, String> {
    let mut components = Vec::new();
    for &codeblocks in all {
        let plan = Plan {
            codeblocks,
            ..Plan::new(size, ONE_WAVELET)
        };
        components.extend(checked(plan, &[MANY_CODEBLOCKS_RATE], false)?);
    }
    Ok(components)
}

/// The components whose instructions are counted, or which decoders differ on one.
pub fn counted_components() -> Result<Vec<Component>, String> {
    let mut components = of_wavelets(COUNTED_SIZE, false)?;
    components.extend(in_codeblocks(COUNTED_SIZE, &COUNTED_CODEBLOCKS)?);
    let small = Plan::new(OTHER_SIZES[0], ONE_WAVELET);
    components.extend(checked(small, &RATES[..1], false)?);
    Ok(components)
}

/// The components of all tables, or which decoders differ on one.
pub fn components() -> Result<Vec<Component>, String> {
    let mut components = of_wavelets(FULL_SIZE, true)?;
    let plan = Plan::new(FULL_SIZE, ONE_WAVELET);
    components.extend(checked(plan, &OTHER_RATES, false)?);
    for size in OTHER_SIZES {
        let plan = Plan::new(size, ONE_WAVELET);
        components.extend(checked(plan, &RATES[..1], false)?);
    }
    components.extend(in_codeblocks(FULL_SIZE, &MANY_CODEBLOCKS)?);
    Ok(components)
}

/// The low delay pictures of plans, checked; or which decoders differ on one.
fn checked_slices(plans: &[SlicePlan]) -> Result<Vec<Sliced>, String> {
    eprintln!("encoding and checking: {} low delay pictures", plans.len());
    let pictures = Sliced::of(plans)?;
    pictures.iter().try_for_each(slices::check)?;
    Ok(pictures)
}

/// The low delay pictures whose instructions are counted, or which decoders differ on one.
pub fn counted_slices() -> Result<Vec<Sliced>, String> {
    checked_slices(&counted_plans())
}

/// The low delay pictures of the tables.
pub struct LowDelayPictures {
    pub full: Vec<Sliced>,
    /// The first has one slice.
    pub growing: Vec<Sliced>,
}

/// The low delay pictures of the tables, or which decoders differ on one.
pub fn low_delay_pictures() -> Result<LowDelayPictures, String> {
    let full = checked_slices(&full_plans())?;
    let growing = growing(COUNTED_SIZE);
    slices::check_growth(&growing)?;
    Ok(LowDelayPictures { full, growing })
}

/// Whether a component is one of the tables of wavelets, which have the reference beside the others.
fn is_of_wavelets(component: &Component) -> bool {
    component.size() == FULL_SIZE && RATES.contains(&component.rate)
}

/// Whether a component is one of the table of sizes.
fn is_of_sizes(component: &Component) -> bool {
    let p = &component.parameters;
    p.intra && p.wavelet == ONE_WAVELET && component.rate == RATES[0]
}

/// Whether a component is one of the table of rates.
fn is_of_rates(component: &Component) -> bool {
    let p = &component.parameters;
    p.intra && p.wavelet == ONE_WAVELET && component.size() == FULL_SIZE
}

/// Whether a component is one of the table of many codeblocks, and of no other.
fn is_of_codeblocks(component: &Component) -> bool {
    component.rate == MANY_CODEBLOCKS_RATE
}

/// Whether a component is measured with large numbers, too, and with refusals if it is of the one
/// wavelet.
fn is_of_exact(component: &Component) -> bool {
    let is_intra = component.parameters.intra;
    is_intra && component.size() == FULL_SIZE && component.rate == RATES[RATES.len() - 1]
}

/// What is measured in every pass, and the best of it so far.
pub struct Tables<'a> {
    timed: Vec<(&'a Component, Option<Speeds>)>,
    /// The first has one codeblock.
    codeblocks: Vec<(&'a Component, Option<CodeblockTimes>)>,
    slices: Vec<(&'a Sliced, Option<Speeds>)>,
    growing: &'a [Sliced],
    /// For each of these.
    growth: Vec<Option<f64>>,
    exact: Vec<(LargeAndSmall<'a>, Option<ExactTimes>)>,
    refusals: Vec<(Call, Option<f64>)>,
}

/// Keeps the better of what was measured before, if anything was, and now.
fn keep_best<T: Copy>(best: &mut Option<T>, now: T, better: impl Fn(T, T) -> T) {
    *best = Some(best.map_or(now, |before| better(before, now)));
}

impl<'a> Tables<'a> {
    /// The tables of all components and low delay pictures, or which decoders differ.
    pub fn new(
        components: &'a [Component],
        pictures: &'a LowDelayPictures,
    ) -> Result<Tables<'a>, String> {
        eprintln!("checking large numbers and refusals");
        let mut exact = Vec::new();
        let mut refusals = Vec::new();
        for component in components.iter().filter(|component| is_of_exact(component)) {
            exact.push((LargeAndSmall::of(component)?, None));
            if component.parameters.wavelet == ONE_WAVELET {
                refusals = refusals::calls(component)?;
            }
        }
        let (codeblocks, timed): (Vec<_>, Vec<_>) = components
            .iter()
            .partition(|component| is_of_codeblocks(component));
        Ok(Tables {
            timed: timed.into_iter().map(|m| (m, None)).collect(),
            codeblocks: codeblocks.into_iter().map(|m| (m, None)).collect(),
            slices: pictures.full.iter().map(|m| (m, None)).collect(),
            growing: &pictures.growing,
            growth: vec![None; pictures.growing.len()],
            exact,
            refusals: refusals.into_iter().map(|call| (call, None)).collect(),
        })
    }

    /// Measures everything once more.
    pub fn pass(&mut self, effort: Effort) {
        let alone = Effort {
            reference_rounds: 0,
            ..effort
        };
        for (component, best) in &mut self.timed {
            let effort = if is_of_wavelets(component) {
                effort
            } else {
                alone
            };
            keep_best(best, measure(component, effort), Speeds::best);
        }
        self.measure_codeblocks(effort);
        for (sliced, best) in &mut self.slices {
            keep_best(best, slices::measure(sliced, effort), Speeds::best);
        }
        let growth = slices::measure_growth(self.growing, effort);
        for (best, time) in self.growth.iter_mut().zip(growth) {
            keep_best(best, time, f64::min);
        }
        for (both, best) in &mut self.exact {
            keep_best(best, both.measure(effort), ExactTimes::best);
        }
        let (calls, bests): (Vec<_>, Vec<_>) =
            self.refusals.iter_mut().map(|(c, b)| (c, b)).unzip();
        for (best, time) in bests.into_iter().zip(refusals::measure(calls, effort)) {
            keep_best(best, time, f64::min);
        }
    }

    /// Measures the table of many codeblocks once more.
    fn measure_codeblocks(&mut self, effort: Effort) {
        let components: Vec<&Component> = self.codeblocks.iter().map(|(m, _)| *m).collect();
        let times = codeblocks::measure(&components, effort);
        for ((_, best), time) in self.codeblocks.iter_mut().zip(times) {
            keep_best(best, time, CodeblockTimes::best);
        }
    }

    /// The rows of a table of components, in the order of a key.
    fn rows(&self, belongs: fn(&Component) -> bool, key: fn(&Component) -> usize) -> Vec<Row> {
        let mut timed: Vec<_> = self.timed.iter().filter(|(m, _)| belongs(m)).collect();
        timed.sort_by_key(|(component, _)| key(component));
        let row = |(component, speeds): &(&Component, Option<Speeds>)| {
            Row::new(component, speeds.expect("a pass"))
        };
        timed.into_iter().map(row).collect()
    }

    /// The rows of the table of many codeblocks.
    fn codeblock_rows(&self) -> Vec<CodeblockRow> {
        let Some((_, one)) = self.codeblocks.first() else {
            return Vec::new();
        };
        let one = one.expect("a pass");
        let rows = self.codeblocks.iter();
        rows.map(|(component, times)| CodeblockRow::new(component, times.expect("a pass"), one))
            .collect()
    }

    /// The rows of the table of ever more slices.
    fn growth_rows(&self) -> Vec<GrowthRow> {
        let times: Vec<f64> = self.growth.iter().map(|t| t.expect("a pass")).collect();
        let rows = self.growing.iter().zip(&times);
        rows.map(|(sliced, &time)| GrowthRow::new(sliced, time, times[0]))
            .collect()
    }

    /// The report after the last pass.
    pub fn to_report(&self) -> Report {
        let slices = self.slices.iter();
        let exact = self.exact.iter();
        let refusals = self.refusals.iter();
        Report {
            wavelets: self.rows(is_of_wavelets, |_| 0),
            sizes: self.rows(is_of_sizes, Component::samples),
            rates: self.rows(is_of_rates, |component| component.body.len()),
            codeblocks: self.codeblock_rows(),
            slices: slices
                .map(|(sliced, speeds)| Row::of_slices(sliced, speeds.expect("a pass")))
                .collect(),
            growth: self.growth_rows(),
            exact: exact
                .map(|(both, times)| ExactRow::new(both, times.expect("a pass")))
                .collect(),
            refusals: refusals
                .map(|(call, time)| RefusalRow::new(call, time.expect("a pass")))
                .collect(),
        }
    }
}
