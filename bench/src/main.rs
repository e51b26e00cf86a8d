//! `bench IPv4|IPv6 NETWORKS MAP ROW ROUNDS` measures one row of one map. `run` calls it.
mod data;
mod maps;
mod memory;

use maps::{Map, Port};
use memory::{HELD, PEAK};
use prefix_trie::PrefixMap;
use std::{collections::BTreeMap, env, sync::atomic::Ordering::Relaxed, time::Instant};

fn build<K: Copy, M: Map<K>>(networks: &[(K, u8)]) -> M {
    let mut map = M::new();
    for (i, &(key, len)) in networks.iter().enumerate() {
        map.insert(key, len, i as u64);
    }
    map
}

/// Makes the call of a row for each network or address. Returns the sum of the results, which is the same for each map.
fn round<K: Copy, M: Map<K>>(map: &mut M, networks: &[(K, u8)], addresses: &[(K, u8)], row: &str) -> u64 {
    match row {
        "build" => networks[1..2].iter().map(|&(key, len)| build::<K, M>(networks).get(key, len).unwrap_or(0)).sum(),
        "get" => networks.iter().map(|&(key, len)| map.get(key, len).unwrap_or(0)).sum(),
        "get_lpm" => addresses.iter().map(|&(key, len)| map.get_lpm(key, len).unwrap_or(0)).sum(),
        "remove" => networks.iter().map(|&(key, len)| {
            let value = map.remove(key, len).unwrap_or(0);
            map.insert(key, len, value);
            value
        }).sum(),
        row => panic!("no row {row}"),
    }
}

/// Prints the sum of a round, the bytes of the map, their peak while it grew, and the nanoseconds per call of the fastest round.
fn measure<K: Copy, M: Map<K>>(family: &data::Family, key: fn(u128) -> K, words: &[String]) {
    let (networks, addresses) = data::networks(family, words[1].parse().unwrap());
    let networks: Vec<_> = networks.into_iter().map(|(network, len)| (key(network), len)).collect();
    let addresses: Vec<_> = addresses.into_iter().map(|address| (key(address), family.width)).collect();
    let before = HELD.load(Relaxed);
    PEAK.store(before, Relaxed);
    let mut map: M = build(&networks);
    let (held, peak) = (HELD.load(Relaxed) - before, PEAK.load(Relaxed) - before);
    let (mut sum, mut best) = (0, f64::MAX);
    for _ in 0..words[4].parse().unwrap() {
        let start = Instant::now();
        sum = round(&mut map, &networks, &addresses, &words[3]);
        best = best.min(start.elapsed().as_nanos() as f64 / networks.len() as f64);
    }
    println!("{sum} {held} {peak} {best:.1}");
}

fn main() {
    let words: Vec<String> = env::args().skip(1).collect();
    let (ipv4, ipv6) = (|number| number as u32, |number| number);
    match (words[0].as_str(), words[2].as_str()) {
        ("IPv4", "here") => measure::<u32, Port>(&data::IPV4, ipv4, &words),
        ("IPv4", "prefix-trie") => measure::<u32, PrefixMap<(u32, u8), u64>>(&data::IPV4, ipv4, &words),
        ("IPv4", "BTreeMap") => measure::<u32, BTreeMap<(u32, u8), u64>>(&data::IPV4, ipv4, &words),
        ("IPv6", "here") => measure::<u128, Port>(&data::IPV6, ipv6, &words),
        ("IPv6", "prefix-trie") => measure::<u128, PrefixMap<(u128, u8), u64>>(&data::IPV6, ipv6, &words),
        ("IPv6", "BTreeMap") => measure::<u128, BTreeMap<(u128, u8), u64>>(&data::IPV6, ipv6, &words),
        _ => panic!("no such family or map"),
    }
}
