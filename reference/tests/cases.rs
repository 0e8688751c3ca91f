//! The seeded cases: the same every time, of every kind, and run in step with
//! the laws of a layout. (The runner itself checks that no job is late.)

use std::collections::BTreeSet;

use reference::cases::{cases, MOST_LINES};
use reference::file::{read_file, PlanFile};
use reference::layout::{Kind, Layout};
use reference::listing::{listing, MAX_FILE};
use reference::plan::{close, Plan, FULL_LOAD};

#[test]
fn seed_decides_the_cases() {
    let first: Vec<Vec<u8>> = cases(7, 1200).collect();
    assert_eq!(first.len(), 1200);
    assert!(cases(7, 1200).eq(first.iter().cloned()));
    assert!(cases(7, 900).eq(first[..900].iter().cloned()));
    assert!(!cases(8, 1200).eq(first));
}

#[test]
fn every_refusal_and_layout_comes_up() {
    let mut seen = BTreeSet::new();
    let mut longest = 0;
    for file in cases(3, 2000) {
        let listing = String::from_utf8(listing(&file)).unwrap();
        longest = longest.max(listing.lines().count());
        let layout = file.get(7).map(|&letter| char::from(letter));
        let first = listing.lines().next().unwrap();
        if let Some(refusal) = first.strip_prefix("refused ") {
            let code = refusal.split(' ').next().unwrap();
            seen.insert(code.to_string());
            if code == "27" {
                seen.insert(format!("27 under {}", layout.unwrap()));
            }
        } else {
            seen.insert(format!("run under {}", layout.unwrap()));
        }
        for line in listing.lines() {
            let mut words = line.split(' ');
            if let (Some(call @ ("request" | "done")), Some(_), Some(answer)) =
                (words.next(), words.next(), words.next())
            {
                seen.insert(format!("{call} {answer} {}", words.next().unwrap_or("")));
            }
        }
        if file.len() == MAX_FILE {
            seen.insert("longest file".into());
        }
    }
    assert!(longest as u64 <= MOST_LINES);
    for code in [
        1, 2, 3, 4, 5, 10, 11, 12, 13, 14, 15, 16, 17, 18, 21, 25, 26, 27,
    ] {
        assert!(seen.contains(&code.to_string()), "refusal {code}");
    }
    for letter in ['F', 'S', 'D'] {
        assert!(seen.contains(&format!("27 under {letter}")));
        assert!(seen.contains(&format!("run under {letter}")));
    }
    for answer in [
        "request ok ",
        "request refused 6",
        "request refused 22",
        "done ok ",
        "done refused 6",
        "done refused 23",
        "longest file",
    ] {
        assert!(seen.contains(answer), "{answer}");
    }
}

#[test]
fn layouts_of_the_cases_obey_their_laws() {
    let mut split = 0;
    for file in cases(5, 1500) {
        let Ok(PlanFile {
            m, delta, tasks, ..
        }) = read_file(&file)
        else {
            continue;
        };
        let Ok(plan) = close(&tasks, m, delta) else {
            continue;
        };
        if plan.shortest_period > 40 {
            continue;
        }
        for kind in Kind::ALL {
            if let Ok(layout) = Layout::make(kind, &plan) {
                check_laws(&plan, &layout);
                split += usize::from(plan.bins.len() > plan.processors);
            }
        }
    }
    assert!(split > 10, "only {split} layouts with split bins");
}

fn check_laws(plan: &Plan, layout: &Layout) {
    let slot = plan.slot;
    let longest = plan.shortest_period + 2 * slot;
    for tick in 0..slot {
        let mut used = BTreeSet::new();
        for bin in 0..plan.bins.len() {
            if let Some(processor) = layout.serve(tick, bin) {
                assert!(processor < plan.processors);
                assert!(used.insert(processor), "two bins on {processor} in {tick}");
            }
        }
    }
    for (number, bin) in plan.bins.iter().enumerate() {
        for start in 0..slot {
            let mut served = 0;
            for length in 1..=longest {
                let tick = start + length - 1;
                served += u64::from(layout.serve(tick, number).is_some());
                let enough = served * FULL_LOAD >= bin.load * length;
                assert!(
                    length < plan.shortest_period || enough,
                    "bin {number} of {plan:?} in {length} ticks from {start}"
                );
            }
        }
    }
}
