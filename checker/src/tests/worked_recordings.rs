//! Recordings whose answers were worked out by hand.

use super::{answer, file, shown};
use crate::chains;
use crate::circle::odds;
use crate::fault::Cause;
use crate::recording;

const CROSSING: &str = "s(T0,T1) l(T0,L1) l(T0,L2) u(T0,L2) u(T0,L1) l(T1,L2) l(T1,L1) u(T1,L1) u(T1,L2)";

/// Both ways must give these circles, and the lock graph this last line.
fn assert_report(events: &str, circles: &[&str], last: &str) {
    let answer = answer(events);
    assert_eq!(answer[..answer.len() - 1], *circles);
    assert_eq!(answer[answer.len() - 1], last);
    assert_eq!(shown(events), circles);
}

#[test]
fn crossing_nests_make_a_circle() {
    assert_report(CROSSING, &["T0:L1>L2 T1:L2>L1 odds 5000"], "circles 1 chains 3");
}

#[test]
fn a_start_behind_the_last_release_leaves_no_circle() {
    let events = "l(T0,L1) l(T0,L2) u(T0,L2) u(T0,L1) s(T0,T1) l(T1,L2) l(T1,L1) u(T1,L1) u(T1,L2)";
    assert_report(events, &[], "circles 0 chains 2");
}

#[test]
fn a_gate_lock_leaves_no_circle() {
    let events = "s(T0,T1) l(T0,L0) l(T0,L1) l(T0,L2) u(T0,L2) u(T0,L1) u(T0,L0) \
                  l(T1,L0) l(T1,L2) l(T1,L1) u(T1,L1) u(T1,L2) u(T1,L0)";
    assert_report(events, &[], "circles 0 chains 6");
}

#[test]
fn three_threads_make_a_circle_of_three() {
    let events = "s(T0,T1) s(T0,T2) l(T0,L1) l(T0,L2) u(T0,L2) u(T0,L1) \
                  l(T1,L2) l(T1,L3) u(T1,L3) u(T1,L2) l(T2,L3) l(T2,L1) u(T2,L1) u(T2,L3)";
    assert_report(events, &["T0:L1>L2 T1:L2>L3 T2:L3>L1 odds 2222"], "circles 1 chains 6");
}

#[test]
fn a_circle_from_two_segments_is_listed_once() {
    let events = format!("{CROSSING} s(T0,T2) l(T0,L1) l(T0,L2) u(T0,L2) u(T0,L1)");
    assert_report(&events, &["T0:L1>L2 T1:L2>L1 odds 5000"], "circles 1 chains 5");
}

#[test]
fn an_idle_joined_thread_passes_an_order_on() {
    let events = "s(T0,T2) l(T0,L1) l(T0,L2) u(T0,L2) u(T0,L1) s(T0,T1) \
                  j(T2,T1) l(T2,L2) l(T2,L1) u(T2,L1) u(T2,L2)";
    assert_report(events, &[], "circles 0 chains 2");
}

#[test]
fn an_empty_file_has_no_chain() {
    assert_report("", &[], "circles 0 chains 0");
}

#[test]
fn every_held_lock_draws_an_edge() {
    let events = "s(T0,T1) l(T0,L1) l(T0,L2) l(T0,L3) u(T0,L3) u(T0,L2) u(T0,L1) \
                  l(T1,L3) l(T1,L1) u(T1,L1) u(T1,L3)";
    assert_report(events, &["T0:L1>L3 T1:L3>L1 odds 5000"], "circles 1 chains 6");
}

#[test]
fn an_edge_has_the_segment_of_its_taking() {
    let events = "l(T0,L1) s(T0,T1) l(T0,L2) u(T0,L2) u(T0,L1) l(T1,L2) l(T1,L1) u(T1,L1) u(T1,L2)";
    assert_report(events, &["T0:L1>L2 T1:L2>L1 odds 5000"], "circles 1 chains 3");
}

/// Thread 2 is started behind the nest of thread 0, and stands opposite to it in the ring. The chains: each of the
/// four edges alone, those of threads 0-1, 1-2, 2-3, and 1-2-3.
#[test]
fn edges_that_are_no_neighbours_must_be_parallel_too() {
    let events = "s(T0,T1) s(T0,T3) l(T0,L1) l(T0,L2) u(T0,L2) u(T0,L1) s(T0,T2) \
                  l(T1,L2) l(T1,L3) u(T1,L3) u(T1,L2) l(T2,L3) l(T2,L4) u(T2,L4) u(T2,L3) \
                  l(T3,L4) l(T3,L1) u(T3,L1) u(T3,L4)";
    assert_report(events, &[], "circles 0 chains 8");
}

#[test]
fn the_budget_is_the_largest_number_of_chains() {
    let ledger = recording::read(&file(CROSSING)).expect("valid").ledger;
    let with_budget = |budget| chains::report(&ledger.graph, &ledger.order, budget, 64).map(|report| report.chains);
    assert_eq!(with_budget(2), Err(Cause::MoreChainsThanBudget));
    assert_eq!(with_budget(3), Ok(3));
}

#[test]
fn circles_need_places() {
    let ledger = recording::read(&file(CROSSING)).expect("valid").ledger;
    let with_places =
        |places| chains::report(&ledger.graph, &ledger.order, 3, places).map(|report| report.circles.len());
    assert_eq!(with_places(0), Err(Cause::MoreCirclesThanPlaces));
    assert_eq!(with_places(1), Ok(1));
}

#[test]
fn too_many_chains_are_told_before_too_many_circles() {
    let ledger = recording::read(&file(CROSSING)).expect("valid").ledger;
    let refused = chains::report(&ledger.graph, &ledger.order, 2, 0).map(|report| report.chains);
    assert_eq!(refused, Err(Cause::MoreChainsThanBudget));
}

#[test]
fn a_join_fits_after_all_starts() {
    let starts: String = (1..64).map(|started| format!("s(T0,T{started}) ")).collect();
    assert_eq!(answer(&starts), ["circles 0 chains 0"]);
    assert_eq!(answer(&format!("{starts} j(T0,T1)")), ["circles 0 chains 0"]);
}

#[test]
fn lock_63_is_the_last_one() {
    assert_eq!(answer("l(T0,L63)"), ["circles 0 chains 0"]);
    assert_eq!(answer("l(T0,L64)"), ["line 1 column 1 layer ledger cause 1"]);
}

#[test]
fn odds_fall_with_the_threads() {
    assert_eq!([odds(2, 1), odds(3, 1), odds(4, 1), odds(4, 3)], [5000, 2222, 937, 312].map(Some));
    assert_eq!([odds(15, 1), odds(16, 1), odds(64, 8)], [0, 0, 0].map(Some));
    assert_eq!([odds(1, 1), odds(65, 1), odds(2, 0), odds(2, 9)], [None; 4]);
}
