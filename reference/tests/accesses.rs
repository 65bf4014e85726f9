// What the series of accesses to the panel cover, gone through with the second implementation on both
// sides, and that a wrong side is noticed.

use edges::{edge, Edge};
use reference::accesses::*;
use reference::dice::{Counts, Dice};
use std::collections::{BTreeMap, BTreeSet};
use wrong::wrong_panels;

mod edges;
mod wrong;

/// Each of these was due at least so often, and nothing else.
fn all_due(counts: &BTreeMap<u8, usize>, keys: impl IntoIterator<Item = u8>, least: usize) {
    let keys: BTreeSet<u8> = keys.into_iter().collect();
    assert_eq!(counts.keys().copied().collect::<BTreeSet<u8>>(), keys);
    for (key, count) in counts {
        assert!(*count >= least, "{key} was due {count} times");
    }
}

#[test]
fn the_series_meet_every_number_and_every_rule() {
    let mut comparison = PanelComparison::new(second);
    comparison.go_through(1, 1);
    for (name, tally) in &comparison.groups {
        println!("{name}: {tally}");
    }
    let all = &comparison.all;
    println!("{all}");
    assert_eq!(all.differences, 0);
    assert!(all.accesses() >= LEAST_ACCESSES && all.accepted() >= LEAST_ACCEPTED);
    assert!(all.starts >= 20_000 && all.reads >= 200_000 && all.lines >= 100_000);
    all_due(&all.numbers, 0..=14, 200);
    all_due(&all.rules, 29..=43, 400);
    // A good part of the steps of a play is accepted.
    let plays = &comparison.groups["play"];
    assert!(5 * plays.accepted() >= 2 * plays.steps());
    let groups = comparison.groups.values();
    let accesses: usize = groups.map(Tally::accesses).sum();
    assert_eq!(accesses, all.accesses());
}

#[test]
fn every_value_comes_to_every_address_and_every_address_is_read() {
    let mut written = BTreeSet::new();
    let mut read = BTreeSet::new();
    every_address_and_value(&mut Dice::new(Counts::All, 1), &mut |_, series| {
        for access in &series.accesses {
            match access {
                Access::Write(address, value, _) => drop(written.insert((*address, *value))),
                Access::Read(address) => drop(read.insert(*address)),
                _ => {}
            }
        }
    });
    assert_eq!((written.len(), read.len()), (65_536, 256));
}

#[test]
fn lengths_of_all_standings_come() {
    let mut standings = BTreeSet::new();
    let mut edges: BTreeMap<Edge, usize> = BTreeMap::new();
    let mut past = [0; 2];
    let mut too_long = 0;
    some_series(&mut |_, series| {
        let mut panel = series.panel;
        let mut state = series.state.clone();
        for access in &series.accesses {
            let mut spare = vec![0; access.room()];
            let (before, length) = (panel, panel.length as usize);
            let edge = access
                .is_step()
                .then(|| edge(&before, &state, spare.len()))
                .flatten();
            second(*access, &mut panel, &mut state, &mut spare);
            if !access.is_step() {
                continue;
            }
            let answer = told(&panel);
            // How long the two are beside the state, and whether it is accepted.
            let [spare, state] = [spare.len(), state.len()];
            standings.insert((spare.cmp(&length), state.cmp(&length), answer.is_ok()));
            match answer {
                // The length is past the end, and above 32,768.
                Err(2) if length > state => past[usize::from(length > 32_768)] += 1,
                Err(1) => too_long += 1,
                _ => {}
            }
            if let Some(edge) = edge {
                *edges.entry(edge).or_default() += 1;
                assert_eq!(answer.is_ok(), edge.fits());
            }
        }
    });
    // Accepted with the state's buffer as long as the state or longer, refused with every standing.
    let accepted = standings.iter().filter(|(_, _, accepted)| *accepted);
    assert_eq!(accepted.count(), 6);
    assert_eq!(standings.len(), 6 + 9);
    println!("{edges:?} {past:?} {too_long}");
    assert_eq!(edges.len(), Edge::ALL.len());
    assert!(edges.values().chain(&past).all(|count| *count >= 10));
    assert!(too_long >= 20);
}

#[test]
fn the_series_are_fixed_by_their_seed() {
    let gather = |seed| {
        let mut all = Vec::new();
        plays(&mut Dice::new(Counts::All, seed), 50, &mut |_, series| {
            all.push((series.panel, series.state.clone(), series.accesses.clone()))
        });
        all
    };
    assert!(gather(5) == gather(5));
    assert!(gather(5) != gather(6));
}

/// Part of the series.
fn some_series(visit: Watcher) {
    let mut dice = Dice::new(Counts::All, 1);
    plays(&mut dice, 400, visit);
    any_records(&mut dice, 400, visit);
    weights(&mut dice, visit);
    lengths(&mut dice, visit);
    let mut turn = 0;
    every_address_and_value(&mut dice, &mut |group, series| {
        turn += 1;
        if turn % 8 == 1 {
            visit(group, series);
        }
    });
}

#[test]
fn a_wrong_panel_is_noticed() {
    let mut parts = Vec::new();
    some_series(&mut |group, series| parts.push((group, series.clone())));
    let differs = |side: Side| {
        let mut comparison = PanelComparison::new(side);
        parts.iter().any(|(group, series)| {
            comparison.compare(group, series);
            comparison.all.differences > 0
        })
    };
    assert!(!differs(second));
    for (name, side) in wrong_panels().concat() {
        assert!(differs(side), "not noticed: {name}");
    }
}
