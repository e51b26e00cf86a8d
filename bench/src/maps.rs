//! The three maps: this crate by its C interface, the original, and `BTreeMap`.
use prefix_trie::{Prefix, PrefixMap};
use std::collections::BTreeMap;

/// What is measured. Values are numbers of 64 bits, as in the C interface.
pub trait Map<K> {
    fn new() -> Self;
    fn insert(&mut self, key: K, len: u8, value: u64);
    fn get(&mut self, key: K, len: u8) -> Option<u64>;
    /// Returns the sum of the network, the length and the value of the longest match.
    fn get_lpm(&mut self, key: K, len: u8) -> Option<u64>;
    fn remove(&mut self, key: K, len: u8) -> Option<u64>;
}

macro_rules! rust_map {
    ($map:ident, $key:ty, $get_lpm:expr) => {
        impl Map<$key> for $map<($key, u8), u64> {
            fn new() -> Self {
                $map::new()
            }
            fn insert(&mut self, key: $key, len: u8, value: u64) {
                $map::insert(self, (key, len), value);
            }
            fn get(&mut self, key: $key, len: u8) -> Option<u64> {
                $map::get(self, &(key, len)).copied()
            }
            fn get_lpm(&mut self, key: $key, len: u8) -> Option<u64> {
                $get_lpm(self, (key, len))
            }
            fn remove(&mut self, key: $key, len: u8) -> Option<u64> {
                $map::remove(self, &(key, len))
            }
        }
    };
}

macro_rules! rust_maps {
    ($key:ty) => {
        rust_map!(BTreeMap, $key, |_: &Self, _| None);
        rust_map!(PrefixMap, $key, |map: &Self, network| {
            PrefixMap::get_lpm(map, &network).map(|(found, value)| found.mask() as u64 + found.prefix_len() as u64 + value)
        });
    };
}

rust_maps!(u32);
rust_maps!(u128);

/// The handle of `prefix_trie.h`.
#[repr(C)]
pub struct Port(*mut u8);

/// The entries of `prefix_trie.h`. An address is one number or two.
#[repr(C)]
#[derive(Default)]
struct Entry<Address> {
    value: u64,
    address: Address,
    len: u8,
    found: bool,
}

/// The result of `get` in `prefix_trie.h`.
#[repr(C)]
struct Value {
    value: u64,
    code: u32,
}

unsafe extern "C" {
    safe fn prefix_trie_c_new(table: &mut Port) -> u32;
    safe fn prefix_trie_c_free(table: &mut Port);
}

impl Drop for Port {
    fn drop(&mut self) {
        prefix_trie_c_free(self);
    }
}

macro_rules! port {
    ($key:ty, $kind:ty, $n:literal, [$($number:ident),+], $split:expr, $insert:ident, $get:ident, $get_lpm:ident, $remove:ident) => {
        unsafe extern "C" {
            safe fn $insert(table: &mut Port, $($number: $kind,)+ len: u8, value: u64) -> u32;
            safe fn $get(table: &mut Port, $($number: $kind,)+ len: u8) -> Value;
            safe fn $get_lpm(table: &mut Port, $($number: $kind,)+ len: u8, entry: &mut Entry<[$kind; $n]>) -> u32;
            safe fn $remove(table: &mut Port, $($number: $kind,)+ len: u8, value: &mut u64) -> u32;
        }

        impl Map<$key> for Port {
            fn new() -> Port {
                let mut table = Port(std::ptr::null_mut());
                assert_eq!(prefix_trie_c_new(&mut table), 0);
                table
            }
            fn insert(&mut self, key: $key, len: u8, value: u64) {
                let [$($number),+] = $split(key);
                assert_eq!($insert(self, $($number,)+ len, value), 0);
            }
            fn get(&mut self, key: $key, len: u8) -> Option<u64> {
                let [$($number),+] = $split(key);
                let found = $get(self, $($number,)+ len);
                (found.code == 0).then_some(found.value)
            }
            fn get_lpm(&mut self, key: $key, len: u8) -> Option<u64> {
                let ([$($number),+], mut entry) = ($split(key), Entry::default());
                let code = $get_lpm(self, $($number,)+ len, &mut entry);
                // The last number of an address is its last 64 bits.
                (code == 0).then_some(entry.address[$n - 1] as u64 + entry.len as u64 + entry.value)
            }
            fn remove(&mut self, key: $key, len: u8) -> Option<u64> {
                let ([$($number),+], mut value) = ($split(key), 0);
                ($remove(self, $($number,)+ len, &mut value) == 0).then_some(value)
            }
        }
    };
}

port!(u32, u32, 1, [number], |key| [key],
    prefix_trie_c_v4_insert, prefix_trie_c_v4_get, prefix_trie_c_v4_match, prefix_trie_c_v4_remove);
port!(u128, u64, 2, [high, low], |key| [(key >> 64) as u64, key as u64],
    prefix_trie_c_v6_insert, prefix_trie_c_v6_get, prefix_trie_c_v6_match, prefix_trie_c_v6_remove);
