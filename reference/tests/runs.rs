//! Plans, layouts and runs with values worked out by hand.

mod common;

use common::{file, hex, tasks, text, WORKED};
use reference::layout::{Kind, Layout, CLOCK_END};
use reference::plan::{close, Plan};

fn plan(numbers: &[(u32, u32)], m: u8, delta: u8) -> Plan {
    close(&tasks(numbers), m, delta).unwrap()
}

fn loads(plan: &Plan) -> Vec<u64> {
    plan.bins.iter().map(|bin| bin.load).collect()
}

fn reserves(plan: &Plan) -> Vec<u64> {
    plan.bins.iter().map(|bin| bin.reserve).collect()
}

fn verdict(numbers: &[(u32, u32)], m: u8, delta: u8) -> u8 {
    close(&tasks(numbers), m, delta).err().unwrap_or(0)
}

fn layout_answer(kind: Kind, numbers: &[(u32, u32)], m: u8) -> u8 {
    Layout::make(kind, &plan(numbers, m, 1)).err().unwrap_or(0)
}

const FOUR_HEAVY: [(u32, u32); 4] = [(56, 100), (60, 100), (53, 100), (63, 100)];

#[test]
fn worked_file() {
    assert_eq!(
        text(&hex(WORKED)),
        "slot 3 bins 2\n\
         bin 0 load 333334 reserve 2\n\
         bin 1 load 666667 reserve 3\n\
         tick 0 - -\n\
         request 0 ok\n\
         request 1 ok\n\
         tick 1 0 1\n\
         tick 2 1 -\n\
         request 0 refused 22\n\
         tick 3 - -\n\
         end 4\n"
    );
}

#[test]
fn bins_are_filled_first_fit_with_charges_rounded_up() {
    assert_eq!(loads(&plan(&[(1, 2), (1, 2)], 1, 1)), [1_000_000]);
    let thirds = plan(&[(1, 3), (1, 3), (1, 3)], 2, 1);
    assert_eq!(loads(&thirds), [666_668, 333_334]);
    assert_eq!(thirds.bins[0].tasks, [0, 1]);
    // The third task goes back to the first bin that has room.
    let back = plan(&[(3, 5), (4, 5), (2, 5), (1, 5)], 4, 1);
    assert_eq!(loads(&back), [1_000_000, 1_000_000]);
    assert_eq!(back.bins[0].tasks, [0, 2]);
    assert_eq!(back.bins[1].tasks, [1, 3]);
    assert_eq!(loads(&plan(&[(1, 1_000_000)], 1, 1)), [1]);
}

#[test]
fn slot_is_the_shortest_period_by_delta() {
    assert_eq!(plan(&[(1, 3)], 1, 3).slot, 1);
    assert_eq!(verdict(&[(1, 3)], 1, 4), 26);
    assert_eq!(plan(&[(1, 50), (1, 17), (1, 20)], 1, 5).slot, 3);
    assert_eq!(plan(&[(1, 16)], 16, 16).slot, 1);
}

#[test]
fn verdicts_in_their_order() {
    assert_eq!(verdict(&[(1, 3)], 0, 0), 4);
    assert_eq!(verdict(&[(1, 3)], 17, 1), 4);
    assert_eq!(verdict(&[], 255, 1), 4);
    assert_eq!(verdict(&[], 1, 0), 5);
    assert_eq!(verdict(&[(1, 3)], 16, 17), 5);
    assert_eq!(verdict(&[], 1, 16), 25);
    assert_eq!(verdict(&[(1, 100), (1, 15)], 1, 16), 26);
    assert_eq!(verdict(&[(1, 100), (1, 16)], 16, 16), 0);
}

#[test]
fn reserves_are_rounded_up() {
    let three = [(5, 9), (8, 17), (5, 9)];
    assert_eq!(reserves(&plan(&three, 3, 1)), [7, 6, 7]);
    assert_eq!(reserves(&plan(&FOUR_HEAVY, 3, 1)), [72, 75, 70, 78]);
    // 12 * 500000 / 1500000 is 4 exactly, 4 * 500000 / 1500000 is above 1.
    assert_eq!(reserves(&plan(&[(3, 6)], 1, 1)), [4]);
    assert_eq!(reserves(&plan(&[(1, 2)], 1, 1)), [2]);
    // A full bin has the whole slot; a bin that is nearly empty has a tick.
    assert_eq!(reserves(&plan(&[(70, 70)], 1, 7)), [10]);
    assert_eq!(reserves(&plan(&[(1, 1_000_000), (9, 9)], 2, 1)), [1, 9]);
}

#[test]
fn what_goes_in() {
    use Kind::{Dedicated, Flat, SemiPartitioned};
    let full = [(1, 1), (1, 1)];
    for kind in Kind::ALL {
        assert_eq!(layout_answer(kind, &full, 2), 0);
        assert_eq!(layout_answer(kind, &full, 1), 27);
    }
    let three = [(5, 9), (8, 17), (5, 9)];
    for kind in Kind::ALL {
        assert_eq!(layout_answer(kind, &three, 3), 0);
        assert_eq!(layout_answer(kind, &three, 2), 27);
    }
    // 295 ticks of 300, but four bins.
    assert_eq!(layout_answer(Flat, &FOUR_HEAVY, 3), 0);
    assert_eq!(layout_answer(SemiPartitioned, &FOUR_HEAVY, 3), 0);
    assert_eq!(layout_answer(Dedicated, &FOUR_HEAVY, 3), 27);
    assert_eq!(layout_answer(Dedicated, &FOUR_HEAVY, 4), 0);
    for letter in *b"FSD" {
        let lines = text(&file(1, 1, letter, &full, b"K\x00\x01"));
        assert_eq!(lines, "refused 27\n");
    }
}

#[test]
fn flat_lays_bins_end_to_end() {
    // Positions 0 to 71, 72 to 146, 147 to 216 and 217 to 294.
    let layout = Layout::make(Kind::Flat, &plan(&FOUR_HEAVY, 3, 1)).unwrap();
    for slot in [0, 100, 700] {
        for t in 0..100 {
            let served = match t {
                0..17 => [Some(0), Some(1), Some(2), None],
                17..47 => [Some(0), Some(1), None, Some(2)],
                47..72 => [Some(0), None, Some(1), Some(2)],
                72..95 => [None, Some(0), Some(1), Some(2)],
                _ => [None, Some(0), Some(1), None],
            };
            for (bin, &processor) in served.iter().enumerate() {
                assert_eq!(layout.serve(slot + t, bin), processor, "tick {t} bin {bin}");
            }
            assert_eq!(layout.serve(slot + t, 4), None);
        }
    }
}

#[test]
fn semi_partitioned_places_the_rest_in_free_time() {
    // Free time ends at 28, 53 and 83.
    let layout = Layout::make(Kind::SemiPartitioned, &plan(&FOUR_HEAVY, 3, 1)).unwrap();
    for slot in [0, 100, 999_999_900] {
        for t in 0..100 {
            let at = slot + t;
            assert_eq!(layout.serve(at, 0), (t >= 28).then_some(0));
            assert_eq!(layout.serve(at, 1), (!(28..53).contains(&t)).then_some(1));
            assert_eq!(layout.serve(at, 2), (!(53..83).contains(&t)).then_some(2));
            let rest = match t {
                0..28 => Some(0),
                28..53 => Some(1),
                53..78 => Some(2),
                _ => None,
            };
            assert_eq!(layout.serve(at, 3), rest);
        }
    }
}

#[test]
fn nobody_is_served_past_the_last_tick_or_bin() {
    let plan = plan(&[(1, 1)], 2, 1);
    for kind in Kind::ALL {
        let layout = Layout::make(kind, &plan).unwrap();
        assert_eq!(layout.serve(CLOCK_END - 1, 0), Some(0));
        assert_eq!(layout.serve(CLOCK_END, 0), None);
        assert_eq!(layout.serve(0, 1), None);
    }
}

#[test]
fn run_of_four_heavy_bins() {
    let calls = b"R\x03R\x02R\x01R\x00K\x00\x64";
    let mut expected = String::from(
        "slot 100 bins 4\n\
         bin 0 load 560000 reserve 72\n\
         bin 1 load 600000 reserve 75\n\
         bin 2 load 530000 reserve 70\n\
         bin 3 load 630000 reserve 78\n\
         request 3 ok\nrequest 2 ok\nrequest 1 ok\nrequest 0 ok\n",
    );
    for t in 0..100 {
        let row = match t {
            0..28 => "3 1 2",
            28..53 => "0 3 2",
            53..63 => "0 1 3",
            63..84 => "0 1 -",
            84 => "- 1 -",
            _ => "- - -",
        };
        expected += &format!("tick {t} {row}\n");
    }
    expected += "end 100\n";
    assert_eq!(text(&file(3, 1, b'S', &FOUR_HEAVY, calls)), expected);
}

#[test]
fn requests_just_after_the_reserve() {
    let calls = b"K\x00\x03R\x00R\x01K\x00\x03R\x00K\x00\x01R\x00K\x00\x02";
    assert_eq!(
        text(&file(1, 1, b'F', &[(1, 4), (1, 4)], calls)),
        "slot 4 bins 1\n\
         bin 0 load 500000 reserve 3\n\
         tick 0 -\ntick 1 -\ntick 2 -\n\
         request 0 ok\nrequest 1 ok\n\
         tick 3 -\ntick 4 0\ntick 5 1\n\
         request 0 refused 22\n\
         tick 6 -\n\
         request 0 ok\n\
         tick 7 -\ntick 8 0\n\
         end 9\n"
    );
}

#[test]
fn next_request_counts_from_the_last_accepted_one() {
    // Requested at 2, so not before 6, neither after its finish nor its done.
    let calls = b"K\x00\x02R\x00K\x00\x03R\x00D\x00K\x00\x01R\x00R\x00D\x00D\x00R\x00";
    assert_eq!(
        text(&file(1, 1, b'D', &[(2, 4)], calls)),
        "slot 4 bins 1\n\
         bin 0 load 500000 reserve 3\n\
         tick 0 -\ntick 1 -\n\
         request 0 ok\n\
         tick 2 0\ntick 3 0\ntick 4 -\n\
         request 0 refused 22\n\
         done 0 refused 23\n\
         tick 5 -\n\
         request 0 ok\n\
         request 0 refused 22\n\
         done 0 ok\n\
         done 0 refused 23\n\
         request 0 refused 22\n\
         end 6\n"
    );
}

#[test]
fn unknown_task_comes_first() {
    let calls = b"D\x00D\x01R\x01R\x40R\xFFD\xFF";
    assert_eq!(
        text(&file(1, 1, b'D', &[(2, 4)], calls)),
        "slot 4 bins 1\n\
         bin 0 load 500000 reserve 3\n\
         done 0 refused 23\n\
         done 1 refused 6\n\
         request 1 refused 6\n\
         request 64 refused 6\n\
         request 255 refused 6\n\
         done 255 refused 6\n\
         end 0\n"
    );
}

#[test]
fn earlier_deadline_runs_first() {
    // Loads 375000 + 250000; the reserve is the slot, 8 * 625 / 1625 up.
    // Task 0 is due at 10, task 1 at 7.
    let calls = b"K\x00\x02R\x00K\x00\x01R\x01K\x00\x04";
    assert_eq!(
        text(&file(1, 1, b'S', &[(3, 8), (1, 4)], calls)),
        "slot 4 bins 1\n\
         bin 0 load 625000 reserve 4\n\
         tick 0 -\ntick 1 -\n\
         request 0 ok\n\
         tick 2 0\n\
         request 1 ok\n\
         tick 3 1\ntick 4 0\ntick 5 0\ntick 6 -\n\
         end 7\n"
    );
}

#[test]
fn ties_are_broken_by_task_number() {
    // Both jobs are due at 8; which one is running does not matter.
    let head = "slot 4 bins 1\nbin 0 load 875000 reserve 4\n";
    let calls = b"R\x00K\x00\x04R\x01K\x00\x03";
    assert_eq!(
        text(&file(1, 1, b'F', &[(5, 8), (1, 4)], calls)),
        format!(
            "{head}request 0 ok\ntick 0 0\ntick 1 0\ntick 2 0\ntick 3 0\n\
             request 1 ok\ntick 4 0\ntick 5 1\ntick 6 -\nend 7\n"
        )
    );
    let calls = b"R\x01K\x00\x04R\x00K\x00\x03";
    assert_eq!(
        text(&file(1, 1, b'F', &[(1, 4), (5, 8)], calls)),
        format!(
            "{head}request 1 ok\ntick 0 1\ntick 1 1\ntick 2 1\ntick 3 1\n\
             request 0 ok\ntick 4 0\ntick 5 1\ntick 6 -\nend 7\n"
        )
    );
}

#[test]
fn dedicated_prints_slot_and_reserves_too() {
    let calls = b"R\x02R\x00K\x00\x02";
    let rows = [(5, 9), (8, 17), (5, 9)];
    assert_eq!(
        text(&file(4, 1, b'D', &rows, calls)),
        "slot 9 bins 3\n\
         bin 0 load 555556 reserve 7\n\
         bin 1 load 470589 reserve 6\n\
         bin 2 load 555556 reserve 7\n\
         request 2 ok\nrequest 0 ok\n\
         tick 0 0 - 2 -\ntick 1 0 - 2 -\n\
         end 2\n"
    );
}

#[test]
fn table_without_calls() {
    assert_eq!(
        text(&file(16, 16, b'F', &[(16, 16)], &[])),
        "slot 1 bins 1\nbin 0 load 1000000 reserve 1\nend 0\n"
    );
}
