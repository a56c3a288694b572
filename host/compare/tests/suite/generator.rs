//! What the cases reach.

use compare::{check, reference, Case, Kind};
use reference::params::{padded_width, Subband};
use reference::Parameters;
use std::collections::BTreeSet;
use vectors::headers::{headers, Header};

/// Whether a subband has a value other than 0.
fn has_values(p: &Parameters, plane: &[i32], band: &Subband) -> bool {
    (band.top..band.top + band.height).any(|y| {
        let row = &plane[y * padded_width(p)..][..padded_width(p)];
        row[band.left..band.left + band.width]
            .iter()
            .any(|&c| c != 0)
    })
}

/// The first cases that are accepted by unpack, with their planes.
fn accepted(count: usize) -> impl Iterator<Item = (Case, Vec<i32>)> {
    (1..)
        .map(Case::from_seed)
        .filter(|case| !matches!(case.kind, Kind::Parameters | Kind::Planes))
        .filter_map(|case| {
            let mut plane = vec![0; case.coefficients.len()];
            let answer = reference::unpack(&case.parameters, &case.bytes, &mut plane);
            (answer.status == 0).then_some((case, plane))
        })
        .take(count)
}

#[test]
fn accepted_bodies_reach_every_subband_size_and_quantiser() {
    let mut sizes = BTreeSet::new();
    let mut kinds = BTreeSet::new();
    let mut bands = BTreeSet::new();
    let mut quantisers = BTreeSet::new();
    let mut more_codeblocks_than_columns = 0;
    let mut more_codeblocks_than_rows = 0;
    for (case, plane) in accepted(6000) {
        let p = &case.parameters;
        sizes.extend([p.width, p.height]);
        kinds.insert((p.wavelet, p.depth, p.intra));
        let headers = headers(p, &case.bytes).unwrap();
        for (k, Header { band, index, .. }) in headers.into_iter().enumerate() {
            if has_values(p, &plane, &band) {
                bands.insert((p.depth, k));
                quantisers.extend(index);
                let level = band.level as usize;
                more_codeblocks_than_columns +=
                    u32::from(p.codeblocks_across[level] as usize > band.width);
                more_codeblocks_than_rows +=
                    u32::from(p.codeblocks_down[level] as usize > band.height);
            }
        }
    }
    let small: Vec<u32> = sizes.iter().copied().filter(|size| *size <= 70).collect();
    assert_eq!(small, (1..=70).collect::<Vec<u32>>());
    assert!(sizes.contains(&4096));
    assert_eq!(kinds.len(), 7 * 5 * 2);
    assert_eq!(bands.len(), 1 + 4 + 7 + 10 + 13);
    assert_eq!(Vec::from_iter(quantisers), Vec::from_iter(0..=115));
    assert!(more_codeblocks_than_columns > 500 && more_codeblocks_than_rows > 500);
}

#[test]
fn every_kind_occurs_and_can_be_repeated() {
    let mut kinds = Vec::new();
    for seed in 1..=300 {
        let case = Case::from_seed(seed);
        if !kinds.contains(&case.kind) {
            kinds.push(case.kind);
        }
        // The reference's command answers the printed case as the reference does.
        let answers = check(&case, reference).unwrap();
        let text = reference::jobs::run_jobs(&case.jobs()).unwrap();
        let statuses: Vec<&str> = text
            .lines()
            .filter(|line| line.starts_with("status"))
            .collect();
        let expected =
            answers.map(|answer| format!("status {} place {}", answer.status, answer.place));
        assert_eq!(statuses, expected);
    }
    assert_eq!(kinds.len(), 19);
}
