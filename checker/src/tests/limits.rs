//! The generated recordings that come up to a limit are where they should be.

use crate::generate::{chain_budget, edge_places, limits, text_of};
use crate::prng::Prng;
use crate::{answer, recording};

const SEEDS: u64 = 40;

/// The last line of the answer.
fn end(file: &[u8]) -> String {
    answer::lines(file).pop().expect("every answer has a last line")
}

/// The first file is answered; the second ends with the fault.
fn assert_limit(files: impl Fn(&mut Prng) -> Vec<Vec<u8>>, answered: &str, refused: &str) {
    for seed in 0..SEEDS {
        let files = files(&mut Prng::new(seed, 0));
        assert!(end(&files[0]).contains(answered), "seed {seed}: {}", end(&files[0]));
        assert!(end(&files[1]).ends_with(refused), "seed {seed}: {}", end(&files[1]));
    }
}

#[test]
fn threads() {
    assert_limit(limits::threads_64, "chains", "layer ledger cause 1");
}

#[test]
fn locks() {
    assert_limit(limits::locks_64, "circles 0", "layer ledger cause 1");
}

#[test]
fn locks_of_one_thread() {
    assert_limit(limits::most_locks_of_one_thread, "circles 0 chains 990", "line 46 column 1 layer ledger cause 10");
}

#[test]
fn edges() {
    assert_limit(edge_places::edges_1024, "", "layer ledger cause 10");
    for seed in 0..SEEDS {
        let at = &edge_places::edges_1024(&mut Prng::new(seed, 0))[0];
        assert_eq!(recording::read(at).expect("valid").ledger.graph.edges().len(), 1024);
    }
}

#[test]
fn circles() {
    assert_limit(limits::circles_64, "circles 64 ", "line 0 column 0 layer search cause 13");
}

#[test]
fn segments() {
    assert_limit(limits::segments_256, "", "layer order cause 9");
    for seed in 0..SEEDS {
        let at = &limits::segments_256(&mut Prng::new(seed, 0))[0];
        let segments = recording::read(at).expect("valid").ledger.order.count();
        assert!(segments == 255 || segments == 256, "{segments}");
    }
}

#[test]
fn bytes() {
    for seed in 0..SEEDS {
        let files = limits::bytes_60000(&mut Prng::new(seed, 0));
        assert_eq!([files[0].len(), files[1].len(), files[2].len()], [59_999, 60_000, 60_001]);
        assert!(end(&files[0]).starts_with("circles "));
        assert_eq!(end(&files[0]), end(&files[1]));
        assert_eq!(end(&files[2]), "line 0 column 0 layer text cause 17");
    }
}

#[test]
fn chains_are_as_many_as_wanted() {
    for seed in 0..SEEDS {
        let prng = &mut Prng::new(seed, 0);
        let chains = prng.between(6, 50_000);
        let file = text_of(&chain_budget::with_chains(prng, chains));
        assert!(end(&file).ends_with(&format!(" chains {chains}")), "{}", end(&file));
    }
}

#[test]
fn chains_at_the_budget_and_one_more() {
    for seed in 0..4 {
        let files = chain_budget::chains_1000000(&mut Prng::new(seed, 0));
        assert!(end(&files[0]).ends_with(" chains 1000000"));
        assert_eq!(end(&files[1]), "line 0 column 0 layer search cause 12");
    }
}
