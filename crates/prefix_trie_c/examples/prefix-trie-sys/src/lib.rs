//! The functions of `include/prefix_trie.h` whose names begin with `prefix_trie_c_`. They are proved.
//!
//! A function takes the address of a variable that points to a table, or is null. Null is a code. No other pointer may be
//! null. The header says what else a caller has to keep.
#![no_std]
#![allow(non_camel_case_types)]

/// A table. A program has pointers to it.
#[repr(C)]
pub struct prefix_trie {
    _opaque: [u8; 0],
}

pub const DONE: u32 = 0;
pub const MISSING: u32 = 1;
pub const MEMORY: u32 = 2;
pub const FULL: u32 = 3;
pub const LENGTH: u32 = 4;
pub const NULL: u32 = 5;
pub const IN_USE: u32 = 6;
pub const COUNTS: u32 = 7;

/// An IPv4 network and its value.
#[repr(C)]
#[derive(Clone, Copy, Debug, Default, PartialEq, Eq)]
pub struct V4Entry {
    pub value: u64,
    pub address: u32,
    pub length: u8,
    pub found: bool,
}

/// An IPv6 network and its value.
#[repr(C)]
#[derive(Clone, Copy, Debug, Default, PartialEq, Eq)]
pub struct V6Entry {
    pub value: u64,
    pub high: u64,
    pub low: u64,
    pub length: u8,
    pub found: bool,
}

/// An IPv6 address.
#[repr(C)]
#[derive(Clone, Copy, Debug, Default, PartialEq, Eq)]
pub struct V6Address {
    pub high: u64,
    pub low: u64,
}

/// A value, if the code is `DONE`.
#[repr(C)]
#[derive(Clone, Copy, Debug, PartialEq, Eq)]
pub struct Value {
    pub value: u64,
    pub code: u32,
}

/// The value of a longest match and the length of its network, if the code is `DONE`.
#[repr(C)]
#[derive(Clone, Copy, Debug, PartialEq, Eq)]
pub struct Found {
    pub value: u64,
    pub length: u8,
    pub code: u8,
}

/// The code of an insertion, and the value that it replaced, if `found`.
#[repr(C)]
#[derive(Clone, Copy, Debug, PartialEq, Eq)]
pub struct Replaced {
    pub value: u64,
    pub code: u32,
    pub found: bool,
}

/// A compiled table. A program has pointers to it.
#[repr(C)]
pub struct prefix_trie_table {
    _opaque: [u8; 0],
}

type Table = *mut *mut prefix_trie;
type Compiled = *mut *mut prefix_trie_table;

extern "C" {
    pub fn prefix_trie_c_version() -> u32;
    pub fn prefix_trie_c_new(table: Table) -> u32;
    pub fn prefix_trie_c_free(table: Table);
    pub fn prefix_trie_c_clear(table: Table) -> u32;

    pub fn prefix_trie_c_v4_insert(table: Table, address: u32, length: u8, value: u64) -> u32;
    pub fn prefix_trie_c_v4_replace(table: Table, address: u32, length: u8, value: u64) -> Replaced;
    pub fn prefix_trie_c_v4_insert_all(
        table: Table,
        entries: *const V4Entry,
        entry_count: usize,
        count: *mut usize,
    ) -> u32;
    pub fn prefix_trie_c_v4_remove(table: Table, address: u32, length: u8, value: *mut u64) -> u32;
    pub fn prefix_trie_c_v4_get(table: Table, address: u32, length: u8) -> Value;
    pub fn prefix_trie_c_v4_len(table: Table, count: *mut usize) -> u32;
    pub fn prefix_trie_c_v4_match(table: Table, address: u32, length: u8, entry: *mut V4Entry) -> u32;
    pub fn prefix_trie_c_v4_match_address(table: Table, address: u32) -> Found;
    pub fn prefix_trie_c_v4_match_all(
        table: Table,
        addresses: *const u32,
        address_count: usize,
        entries: *mut V4Entry,
        entry_count: usize,
    ) -> u32;
    pub fn prefix_trie_c_v4_shortest(table: Table, address: u32, length: u8, entry: *mut V4Entry) -> u32;
    pub fn prefix_trie_c_v4_covers(
        table: Table,
        address: u32,
        length: u8,
        entries: *mut V4Entry,
        entry_count: usize,
        count: *mut usize,
    ) -> u32;
    pub fn prefix_trie_c_v4_contained(
        table: Table,
        address: u32,
        length: u8,
        entries: *mut V4Entry,
        entry_count: usize,
        count: *mut usize,
    ) -> u32;
    pub fn prefix_trie_c_v4_next(
        table: Table,
        address: u32,
        length: u8,
        inclusive: bool,
        entries: *mut V4Entry,
        entry_count: usize,
        count: *mut usize,
    ) -> u32;

    pub fn prefix_trie_c_v6_insert(table: Table, high: u64, low: u64, length: u8, value: u64) -> u32;
    pub fn prefix_trie_c_v6_replace(table: Table, high: u64, low: u64, length: u8, value: u64) -> Replaced;
    pub fn prefix_trie_c_v6_insert_all(
        table: Table,
        entries: *const V6Entry,
        entry_count: usize,
        count: *mut usize,
    ) -> u32;
    pub fn prefix_trie_c_v6_remove(table: Table, high: u64, low: u64, length: u8, value: *mut u64) -> u32;
    pub fn prefix_trie_c_v6_get(table: Table, high: u64, low: u64, length: u8) -> Value;
    pub fn prefix_trie_c_v6_len(table: Table, count: *mut usize) -> u32;
    pub fn prefix_trie_c_v6_match(table: Table, high: u64, low: u64, length: u8, entry: *mut V6Entry) -> u32;
    pub fn prefix_trie_c_v6_match_address(table: Table, high: u64, low: u64) -> Found;
    pub fn prefix_trie_c_v6_match_all(
        table: Table,
        addresses: *const V6Address,
        address_count: usize,
        entries: *mut V6Entry,
        entry_count: usize,
    ) -> u32;
    pub fn prefix_trie_c_v6_shortest(table: Table, high: u64, low: u64, length: u8, entry: *mut V6Entry) -> u32;
    pub fn prefix_trie_c_v6_covers(
        table: Table,
        high: u64,
        low: u64,
        length: u8,
        entries: *mut V6Entry,
        entry_count: usize,
        count: *mut usize,
    ) -> u32;
    pub fn prefix_trie_c_v6_contained(
        table: Table,
        high: u64,
        low: u64,
        length: u8,
        entries: *mut V6Entry,
        entry_count: usize,
        count: *mut usize,
    ) -> u32;
    pub fn prefix_trie_c_v6_next(
        table: Table,
        high: u64,
        low: u64,
        length: u8,
        inclusive: bool,
        entries: *mut V6Entry,
        entry_count: usize,
        count: *mut usize,
    ) -> u32;

    pub fn prefix_trie_c_compile(table: Table, compiled: Compiled) -> u32;
    pub fn prefix_trie_c_table_share(table: Compiled, shared: Compiled) -> u32;
    pub fn prefix_trie_c_table_free(table: Compiled);
    pub fn prefix_trie_c_table_v4_lookup(table: Compiled, address: u32) -> Value;
    pub fn prefix_trie_c_table_v6_lookup(table: Compiled, high: u64, low: u64) -> Value;
    pub fn prefix_trie_c_table_v4_lookup_bulk(
        table: Compiled,
        addresses: *const u32,
        address_count: usize,
        results: *mut Value,
        result_count: usize,
    ) -> u32;
    pub fn prefix_trie_c_table_v6_lookup_bulk(
        table: Compiled,
        addresses: *const V6Address,
        address_count: usize,
        results: *mut Value,
        result_count: usize,
    ) -> u32;
}
