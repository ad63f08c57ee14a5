//! The customer's sentences about chains of relays, run against this implementation and against two that err.

use independent::chain::{sentences, Hop};
use independent::frame::{read, FRAME};
use independent::generate::chains::{chain_case, Chain};
use independent::generate::{Random, Sort};
use independent::relay::relay;

fn own(arrived: &[u8]) -> Vec<u8> {
    let mut out = vec![0; FRAME];
    assert_eq!(relay(arrived, &mut out), 0);
    out
}

/// A right sum lowers the level.
fn lowers(arrived: &[u8]) -> Vec<u8> {
    let mut out = own(arrived);
    if read(arrived).is_ok_and(|reading| reading.header.sent == reading.header.worked) {
        out[0] = 0xFF;
    }
    out
}

/// The level is written as read, not as handed on.
fn as_read(arrived: &[u8]) -> Vec<u8> {
    let mut out = own(arrived);
    out[0] = arrived[0];
    out
}

fn sent_down(chain: &Chain, relay: fn(&[u8]) -> Vec<u8>, random: &mut Random) -> Vec<Hop> {
    let mut hops: Vec<Hop> = Vec::new();
    for &damage in &chain.damage {
        let sent = hops.last().map_or(&chain.first, |hop| &hop.left);
        let arrived = chain.damaged(sent, damage, random);
        let left = relay(&arrived);
        hops.push(Hop::new(arrived, left));
    }
    hops
}

/// How many of 200 chains break a sentence.
fn broken(relay: fn(&[u8]) -> Vec<u8>) -> usize {
    let breaks = |case: &u64| {
        let mut random = Random::new(1, Sort::Chain, *case);
        let chain = chain_case(&mut random);
        let hops = sent_down(&chain, relay, &mut random);
        sentences(&chain.first, &hops).is_err()
    };
    (0..200).filter(breaks).count()
}

#[test]
fn the_sentences_hold() {
    assert_eq!(broken(own), 0);
}

#[test]
fn a_relay_that_lowers_the_level_is_found() {
    assert!(broken(lowers) > 0);
}

#[test]
fn a_relay_that_writes_the_level_read_is_found() {
    assert!(broken(as_read) > 0);
}
