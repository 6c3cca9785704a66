//! The independent implementation held to itself and to what Rust's library knows: one spelling for each tree, modes that
//! only choose, steps that meet each field once and in order, a writer that gives the encoding.

use ajuqvane_tests::cases::{Answers, Independent, Question};
use ajuqvane_tests::generate::{lists, payloads, trees, Random};
use ajuqvane_tests::independent::encode::encode;
use ajuqvane_tests::independent::mask::mask;
use ajuqvane_tests::independent::tree::tree_of;
use ajuqvane_tests::independent::write::write;
use ajuqvane_tests::independent::LENGTH_LIMIT;
use ajuqvane_tests::walk::walk;

const SEED: u64 = 7;
const INPUTS: u64 = 20_000;

#[test]
fn an_encoding_is_strict_and_reads_back() {
    for index in 0..INPUTS {
        let mut random = Random::new(SEED, index);
        let tree = trees::tree(&mut random, false);
        if !tree.is_within_limits() {
            continue;
        }
        let encoding = encode(&tree);
        assert_eq!(mask(7, &encoding.bytes), 0, "{tree:?}");
        assert_eq!(tree_of(&encoding.bytes).as_ref(), Some(&tree));
        let list = lists::list_of(&lists::frames(&mut random, &tree));
        let mut output = vec![0; LENGTH_LIMIT];
        let mut work = vec![1; encoding.sizes.len() + 2];
        if list.len() > LENGTH_LIMIT {
            continue;
        }
        let length = write(&list, &mut output, &mut work).expect("a tree within the limits is written");
        assert_eq!(output[..length], encoding.bytes);
        let sizes: Vec<u32> = encoding.sizes.iter().map(|size| *size as u32).chain([0, 0]).collect();
        assert_eq!(work, sizes);
    }
}

#[test]
fn an_untidy_encoding_has_the_same_tree() {
    for index in 0..INPUTS {
        let mut random = Random::new(SEED + 1, index);
        let tree = trees::tree(&mut random, index % 2 == 0);
        let how = payloads::Untidy { long: 300, loose: 300, wide: 300, lies: 0 };
        let bytes = payloads::untidy(&mut random, &tree, how);
        if bytes.len() <= LENGTH_LIMIT && tree.depth() <= 32 {
            assert_eq!(mask(0, &bytes), 0);
            assert_eq!(tree_of(&bytes), Some(tree));
        }
    }
}

#[test]
fn one_spelling_and_modes_that_choose() {
    for index in 0..4 * INPUTS {
        let bytes = payloads::payload(&mut Random::new(SEED + 2, index));
        let strict = mask(7, &bytes);
        let stopped = matches!(strict, 1 | 2 | 4 | 8 | 2048);
        let tree = tree_of(&bytes);
        assert_eq!(tree.is_none(), stopped);
        assert_eq!(strict == 0, tree.is_some_and(|t| t.is_within_limits() && encode(&t).bytes == bytes));
        for modes in 0..16 {
            let asked = [(1, 16 + 32), (2, 64 + 128 + 256 + 512 + 1024), (4, 4096)];
            let chosen: u32 = asked.iter().filter(|(mode, _)| modes & mode != 0).map(|(_, bits)| bits).sum();
            assert_eq!(mask(modes, &bytes), if stopped { strict } else { strict & chosen });
        }
    }
}

#[test]
fn steps_show_the_tree() {
    for index in 0..INPUTS {
        let bytes = payloads::payload(&mut Random::new(SEED + 3, index));
        if let Some(tree) = tree_of(&bytes) {
            assert_eq!(walk(&bytes, &|reading| reading.by_independent(&bytes)).tree, Ok(tree));
        }
    }
}

#[test]
fn what_is_written_is_strict() {
    for index in 0..INPUTS {
        let list = lists::list(&mut Random::new(SEED + 4, index));
        let mut output = vec![0; LENGTH_LIMIT];
        let mut work = vec![0; LENGTH_LIMIT];
        if let Ok(length) = write(&list, &mut output, &mut work) {
            assert_eq!(mask(7, &output[..length]), 0);
        }
    }
}

#[test]
fn a_question_reads_back() {
    for index in 0..1000 {
        let mut random = Random::new(SEED + 5, index);
        let bytes = payloads::payload(&mut random);
        for question in ajuqvane_tests::generate::places::questions(&mut random, &bytes, 8) {
            assert_eq!(Question::parse(&question.to_string()).as_ref(), Ok(&question));
            assert!(Independent.answer(&question).is_some());
        }
    }
}
