//! Tests on small pictures; no figure is tested.

use bench::codeblocks::{self, CodeblockTimes};
use bench::components::{
    Codeblocks, Component, Plan, Rate, COUNTED_SIZE, NOT_INTRA_RATE, ONE_WAVELET,
};
use bench::decoders::{check, measure, Effort, Planes, PROVED};
use bench::exact::LargeAndSmall;
use bench::instructions::{
    collected, valgrind_version, CountReport, Counts, SliceCountReport, SliceCounts,
};
use bench::libavcodec::Libavcodec;
use bench::picture;
use bench::refusals::{self, calls};
use bench::report::{
    head_cells, slice_head_cells, CodeblockRow, ExactRow, GrowthRow, RefusalRow, Report, Row,
};
use bench::slices::{self, counted_plans, full_plans, SlicePlan, Sliced, GROWING_SLICES};
use bench::timing::{take_turns, Timed};
use ffmpeg::stream::ChromaFormat;
use std::cell::RefCell;
use std::path::Path;
use vectors::offsets::shows_rule;

/// A small picture with a wavelet.
fn small(wavelet: u32) -> Plan {
    Plan {
        width: 64,
        height: 48,
        depth: 2,
        wavelet,
        intra: true,
        codeblocks: Codeblocks::ONE,
    }
}

/// One rate.
const RATE: Rate = Rate {
    bits_a_sample: 2.5,
    first_index: 8,
};

/// A small component with a wavelet.
fn component(wavelet: u32) -> Component {
    Component::of(small(wavelet), &[RATE]).remove(0)
}

/// A small component of wavelet 1 that is not intra.
fn not_intra() -> Component {
    let plan = Plan {
        intra: false,
        ..small(1)
    };
    Component::of(plan, &[RATE]).remove(0)
}

/// A small component of wavelet 1 in codeblocks.
fn divided(codeblocks: Codeblocks) -> Component {
    let plan = Plan {
        codeblocks,
        ..small(1)
    };
    Component::of(plan, &[RATE]).remove(0)
}

/// One codeblock, many and more than there are columns.
fn one_to_many() -> [Component; 4] {
    [
        Codeblocks::ONE,
        Codeblocks::written_out(3, 2),
        Codeblocks::flagged(16, 12),
        Codeblocks::written_out(40, 50),
    ]
    .map(divided)
}

/// A small low delay picture for each chroma format.
fn small_slices() -> Vec<Sliced> {
    let plan = |chroma| SlicePlan::new((64, 48), chroma);
    Sliced::of(&ChromaFormat::ALL.map(plan)).unwrap()
}

#[test]
fn all_decoders_agree_on_slices() {
    let pictures = small_slices();
    for sliced in &pictures {
        assert_eq!(slices::check(sliced), Ok(()));
        assert!((sliced.bits_a_sample() - 2.5).abs() < 0.1, "{sliced}");
        assert_eq!(sliced.slices(), "2 x 3");
    }
    assert_eq!(
        Vec::from_iter(pictures.iter().map(Sliced::samples)),
        [9216, 6144, 4608]
    );
}

#[test]
fn slices_that_libavcodec_misreads_are_not_measured() {
    let plan = SlicePlan {
        bits_a_sample: 4.0,
        slice: (16, 8),
        ..SlicePlan::new((64, 48), ChromaFormat::HalfWidth)
    };
    // Each has 128 bytes.
    let sliced = Sliced::of(&[plan]).unwrap().remove(0);
    assert!(slices::check(&sliced)
        .unwrap_err()
        .starts_with("libavcodec misreads slices"));
}

#[test]
fn more_slices_have_the_same_numbers() {
    let mut pictures = slices::growing((64, 48));
    assert_eq!(pictures.len(), GROWING_SLICES.len());
    assert_eq!(slices::check_growth(&pictures), Ok(()));
    let times = slices::measure_growth(&pictures, ONE_TURN);
    assert!(times.len() == pictures.len() && times.iter().all(|&time| time > 0.0));
    let row = GrowthRow::new(&pictures[2], 3.0, 2.0);
    let text = Report {
        growth: vec![row],
        ..no_report()
    }
    .to_string();
    assert!(text.contains("\n| 4 x 4 | 384 | "), "{text}");
    assert!(text.contains(" | 3.00 | 1.50 |\n"));
    // A bit of the first slice's index.
    pictures[1].picture.bytes[0] ^= 0x40;
    assert!(slices::check_growth(&pictures).is_err());
    assert!(slices::measure_growth(&[], ONE_TURN).is_empty());
}

#[test]
fn low_delay_pictures_are_measured() {
    let sliced = small_slices().remove(1);
    let speeds = slices::measure(&sliced, ONE_TURN);
    assert_eq!(speeds.libavcodec.is_some(), Libavcodec::version().is_some());
    assert!(speeds.reference.is_none());
    let report = Report {
        slices: vec![Row::of_slices(&sliced, speeds)],
        ..no_report()
    };
    let text = report.to_string();
    let head = "| 64 x 48 | 4:2:2 | 3 | 1 | 32 x 16 | 2 x 3 | 2.5";
    assert!(text.contains(head), "{text}");
    assert_columns(&text);
}

#[test]
fn slices_of_all_tables_are_in_range() {
    let plans = [full_plans(), counted_plans()].concat();
    assert_eq!(plans.len(), 11 + 2);
    let across = |plan: &SlicePlan| plan.size.0.div_ceil(plan.slice.0);
    assert!(plans.iter().all(|plan| across(plan) <= 255));
}

#[test]
fn instructions_of_slices_are_counted() {
    if valgrind_version().is_none() {
        return;
    }
    let program = Path::new(env!("CARGO_BIN_EXE_bench_slices_job"));
    let sliced = small_slices().remove(0);
    let counts = SliceCounts::of(&sliced, program).unwrap();
    assert!(counts.a_sample > 1.0);
    let text = SliceCountReport(vec![counts]).to_string();
    assert!(text.contains(&format!("| {} |", slice_head_cells(&sliced).join(" | "))));
    assert_columns(&text);
}

#[test]
fn pictures_are_of_their_seed_and_fit_8_bits() {
    let samples = picture::samples(64, 48, 1);
    assert_eq!(samples.len(), 64 * 48);
    assert_eq!(samples, picture::samples(64, 48, 1));
    assert_ne!(samples, picture::samples(64, 48, 2));
    assert!(samples.iter().all(|v| (-128..128).contains(v)));
}

#[test]
fn components_come_near_to_its_rate() {
    for wavelet in 0..=6 {
        for first_index in [0, 8, 30] {
            let rate = Rate {
                first_index,
                ..RATE
            };
            let component = Component::of(small(wavelet), &[rate]).remove(0);
            let miss = component.bits_a_sample() - rate.bits_a_sample;
            assert!(miss.abs() < 0.3, "wavelet {wavelet}: {miss}");
        }
    }
}

#[test]
fn all_decoders_agree() {
    for wavelet in 0..=6 {
        assert_eq!(
            check(&component(wavelet), true),
            Ok(()),
            "wavelet {wavelet}"
        );
    }
    assert_eq!(check(&not_intra(), true), Ok(()), "not intra");
}

#[test]
fn one_that_is_not_intra_has_the_body_of_the_intra_one() {
    let [intra, other] = [component(1), not_intra()];
    assert_eq!(other.body, intra.body);
    let [unpack, ..] = PROVED;
    let [intra, other] = [intra, other].map(|component| {
        let mut planes = Planes::new(&component);
        unpack(&component, &mut planes);
        planes.coefficients
    });
    // The lower half is of the last level, which is not predicted.
    let half = intra.len() / 2;
    assert_ne!(intra[half..], other[half..]);
}

#[test]
fn the_offset_shows_at_the_rate_that_is_not_intra() {
    let plan = Plan::new(COUNTED_SIZE, ONE_WAVELET);
    let component = Component::of(plan, &[NOT_INTRA_RATE]).remove(0);
    assert!(shows_rule(1, component.index));
}

#[test]
fn codeblocks_change_the_body_alone() {
    let [unpack, ..] = PROVED;
    let one = component(1);
    let mut expected = Planes::new(&one);
    unpack(&one, &mut expected);
    for component in one_to_many() {
        let codeblocks = component.codeblocks;
        assert_eq!(check(&component, true), Ok(()), "{codeblocks}");
        assert_eq!(component.index, one.index, "{codeblocks}");
        let same_body = codeblocks == Codeblocks::ONE;
        assert_eq!(component.body == one.body, same_body, "{codeblocks}");
        let mut planes = Planes::new(&component);
        unpack(&component, &mut planes);
        assert!(planes == expected, "{codeblocks}");
    }
}

#[test]
fn flags_take_the_place_of_zeros() {
    let bits = |codeblocks| divided(codeblocks).bits_a_sample();
    assert!(bits(Codeblocks::flagged(16, 12)) < bits(Codeblocks::written_out(16, 12)));
}

#[test]
fn a_component_that_is_refused_is_not_measured() {
    let mut component = component(1);
    component.body.pop();
    assert!(check(&component, false).is_err());
}

#[test]
fn what_is_timed_takes_turns() {
    let turns = RefCell::new(String::new());
    let one = |name, rounds| {
        let turns = &turns;
        Timed::new(1 << 20, rounds, move || turns.borrow_mut().push(name))
    };
    take_turns(&mut [one('a', 3), one('b', 1), one('c', 2)]);
    assert_eq!(*turns.borrow(), "abcaca");
}

#[test]
fn small_pictures_run_many_times_a_turn() {
    let runs = RefCell::new(0);
    take_turns(&mut [Timed::new(1 << 10, 1, || *runs.borrow_mut() += 1)]);
    assert_eq!(*runs.borrow(), 1 << 10);
}

/// One turn of each decoder.
const ONE_TURN: Effort = Effort {
    rounds: 1,
    reference_rounds: 1,
};

#[test]
fn large_numbers_are_large_and_small_ones_small() {
    for wavelet in 0..=6 {
        let component = component(wavelet);
        let both = LargeAndSmall::of(&component).unwrap();
        let [large, small] = both.largest();
        assert!(large > 1 << 29 && small < 1 << 12, "{large}, {small}");
        assert!(both.wavelet() == wavelet && both.large_rows() > 10.0);
        let times = both.measure(ONE_TURN);
        assert!(times.small > 0.0 && times.large > 0.0);
    }
}

#[test]
fn one_to_many_codeblocks_are_measured() {
    let components = one_to_many();
    let times = codeblocks::measure(&components.each_ref(), ONE_TURN);
    assert_eq!(times.len(), components.len());
    assert!(times.iter().all(|time| time.unpack > 0.0));
    assert!(times.iter().all(|time| time.decode > 0.0));
    assert!(codeblocks::measure(&[], ONE_TURN).is_empty());
}

#[test]
fn refusals_are_of_every_cost() {
    let component = component(1);
    let mut calls = calls(&component).unwrap();
    let answers = calls
        .iter()
        .map(|call| (call.answer.status, call.answer.place));
    let used = component.body.len() as u64;
    let expected = [
        (1, 0),
        (2, 0),
        (3, 0),
        (4, 0),
        (5, 0),
        (6, 0),
        (7, 0),
        (6, 6),
        (7, 6),
        (0, used),
        (10, 2),
        (0, 0),
    ];
    assert_eq!(Vec::from_iter(answers), expected);
    let times = refusals::measure(calls.iter_mut().collect(), ONE_TURN);
    assert_eq!(times.len(), expected.len());
    assert!(times.iter().all(|&time| time > 0.0));
}

#[test]
fn reference_and_libavcodec_take_part_if_asked_to_and_installed() {
    let component = component(1);
    let speeds = measure(&component, ONE_TURN);
    assert_eq!(speeds.libavcodec.is_some(), Libavcodec::version().is_some());
    assert!(speeds.reference.is_some());
    let alone = Effort {
        reference_rounds: 0,
        ..ONE_TURN
    };
    assert!(measure(&component, alone).reference.is_none());
    assert!(measure(&not_intra(), ONE_TURN).libavcodec.is_none());
}

#[test]
fn the_report_has_a_row_for_each_component() {
    let component = component(1);
    let mut speeds = measure(&component, ONE_TURN);
    speeds.libavcodec = None;
    let row = Row::new(&component, speeds);
    let not_intra = Row::new(&not_intra(), speeds);
    let both = LargeAndSmall::of(&component).unwrap();
    let calls = calls(&component).unwrap();
    let times = |unpack, decode| CodeblockTimes { unpack, decode };
    let flagged = divided(Codeblocks::flagged(16, 12));
    let report = Report {
        wavelets: vec![row.clone(), not_intra],
        sizes: vec![row.clone(), row],
        rates: vec![],
        codeblocks: vec![
            CodeblockRow::new(&component, times(2.0, 4.0), times(2.0, 4.0)),
            CodeblockRow::new(&flagged, times(5.0, 12.0), times(2.0, 4.0)),
        ],
        exact: vec![ExactRow::new(&both, both.measure(ONE_TURN))],
        refusals: vec![RefusalRow::new(&calls[0], 0.025)],
        ..no_report()
    };
    let text = report.to_string();
    assert_eq!(text.matches("| 64 x 48 | 2 | 1 |").count(), 3 + 2 + 2);
    assert_eq!(text.matches("| 64 x 48 | 2 | 1, not intra |").count(), 3);
    assert_eq!(
        text.matches("| not installed | not installed |").count(),
        1 + 2
    );
    assert!(text.contains("| 1 x 1 | written out | 2.00 | 4.00 | 1.00 |\n"));
    assert!(text.contains("| 16 x 12 | flagged | 5.00 | 12.0 | 2.50 |\n"));
    assert!(text.ends_with("\n| decode | 1 | before any work | 0.025 |\n"));
    assert_columns(&text);
}

/// A report without rows.
fn no_report() -> Report {
    Report {
        wavelets: vec![],
        sizes: vec![],
        rates: vec![],
        codeblocks: vec![],
        slices: vec![],
        growth: vec![],
        exact: vec![],
        refusals: vec![],
    }
}

/// Asserts that every row of every table has a cell for each column.
fn assert_columns(text: &str) {
    let cells = |line: &str| line.matches(" |").count();
    for table in text.split("\n\n").filter(|part| part.starts_with('|')) {
        let columns = table.lines().map(|line| cells(&line.replace("|---", " |")));
        assert!(columns
            .clone()
            .skip(2)
            .all(|count| Some(count) == columns.clone().next()));
    }
}

#[test]
fn callgrind_tells_its_count() {
    let text = "==7== Events    : Ir\n==7== Collected : 3318227\n==7== \n";
    assert_eq!(collected(text), Some(3_318_227));
    assert_eq!(collected("valgrind: no such tool"), None);
}

#[test]
fn instructions_of_decode_are_those_of_its_parts() {
    if valgrind_version().is_none() {
        return;
    }
    let program = Path::new(env!("CARGO_BIN_EXE_bench_job"));
    for component in [
        component(1),
        not_intra(),
        divided(Codeblocks::written_out(3, 2)),
    ] {
        let counts = Counts::of(&component, program).unwrap();
        let [unpack, synthesise, decode] = counts.a_sample;
        assert!(unpack > 1.0 && synthesise > 1.0);
        assert!((0.9..1.1).contains(&(decode / (unpack + synthesise))));
        let text = CountReport(vec![counts]).to_string();
        assert!(text.contains(&format!("| {} |", head_cells(&component).join(" | "))));
        assert!(text.contains(&format!(" | {} | ", component.codeblocks)));
        assert!(Counts::of(&component, Path::new("no-such-program")).is_err());
    }
}
