//! The ways to the answer against each other, on many random recordings.

use crate::chains;
use crate::compare::agree;
use crate::event::Event;
use crate::generate::{some_rich_recording, text_of};
use crate::lock_graph::Edge;
use crate::prng::Prng;
use crate::segments::Precedence;
use crate::{answer, halts, recording};

#[test]
fn closed_chains_give_the_circles_that_halts_show() {
    let mut tried = 0;
    let mut with_circles = 0;
    for stream in 0..5_000 {
        let events = some_rich_recording(&mut Prng::new(11, stream));
        let by_graph = answer::lines(&text_of(&events));
        let Some(shown) = halts::shown(&events) else {
            continue;
        };
        assert!(agree(&by_graph, &shown.lines), "{events:?}\n{by_graph:?}\n{:?}", shown.lines);
        tried += 1;
        with_circles += usize::from(!shown.lines.is_empty());
    }
    assert!(tried > 4_000 && with_circles > 1_000, "{tried} tried, {with_circles} with circles");
}

#[test]
fn chains_are_counted_as_their_definition_says() {
    let mut tried = 0;
    for stream in 0..5_000 {
        let events = some_rich_recording(&mut Prng::new(12, stream));
        let ledger = recording::read(&text_of(&events)).expect("valid").ledger;
        let edges = ledger.graph.edges();
        if edges.len() > 6 {
            continue;
        }
        let counted = chains::report(&ledger.graph, &ledger.order, 1_000_000, 64).expect("few chains").chains;
        let precedence = ledger.order.precedence();
        let by_definition = sequences(&edges).iter().filter(|sequence| is_chain(sequence, &precedence)).count();
        assert_eq!(counted, by_definition as u64, "{events:?}");
        tried += 1;
    }
    assert!(tried > 2_000, "{tried} tried");
}

/// Every sequence of one or more edges without repetition.
fn sequences(edges: &[Edge]) -> Vec<Vec<Edge>> {
    let mut all = Vec::new();
    for (place, &first) in edges.iter().enumerate() {
        all.push(vec![first]);
        let others = [&edges[..place], &edges[place + 1..]].concat();
        for rest in sequences(&others) {
            all.push([vec![first], rest].concat());
        }
    }
    all
}

fn is_chain(sequence: &[Edge], precedence: &Precedence) -> bool {
    let linked = sequence.windows(2).all(|two| two[0].wanted == two[1].held);
    let smallest_first = sequence.iter().all(|edge| edge.thread >= sequence[0].thread);
    let every_two_fit = (0..sequence.len()).all(|b| {
        (0..b).all(|a| {
            let (a, b) = (sequence[a], sequence[b]);
            a.thread != b.thread && a.guards & b.guards == 0 && precedence.parallel(a.segment, b.segment)
        })
    });
    linked && smallest_first && every_two_fit
}

#[test]
fn a_halt_before_a_start_shows_no_circle() {
    let events = [
        Event::Lock { thread: 0, lock: 1 },
        Event::Start { thread: 0, started: 1 },
        Event::Lock { thread: 1, lock: 2 },
    ];
    let shown = halts::shown(&events).expect("small");
    assert_eq!((shown.halts, shown.lines.len()), (4, 0));
}
