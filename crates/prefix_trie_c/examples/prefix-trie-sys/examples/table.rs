//! Routes for IPv4 and IPv6 from Rust. It prints what table.c prints.
use prefix_trie_sys::*;
use std::process::exit;
use std::ptr::null_mut;

/// A table, or null. It is freed once, and lookups take it shared.
struct Table(*mut prefix_trie);

// Safety: each call passes the address of a variable that points to a table or is null, and pointers to values of the
// types that it takes, with the true lengths of slices. A table is on one thread.
impl Table {
    const NULL: Table = Table(null_mut());

    fn new(&mut self) -> u32 {
        unsafe { prefix_trie_c_new(&mut self.0) }
    }

    fn free(&mut self) {
        unsafe { prefix_trie_c_free(&mut self.0) }
    }

    fn clear(&mut self) -> u32 {
        unsafe { prefix_trie_c_clear(&mut self.0) }
    }

    fn insert(&mut self, address: u32, length: u8, value: u64) -> u32 {
        unsafe { prefix_trie_c_v4_insert(&mut self.0, address, length, value) }
    }

    fn replace(&mut self, address: u32, length: u8, value: u64) -> Replaced {
        unsafe { prefix_trie_c_v4_replace(&mut self.0, address, length, value) }
    }

    fn remove(&mut self, address: u32, length: u8, value: &mut u64) -> u32 {
        unsafe { prefix_trie_c_v4_remove(&mut self.0, address, length, value) }
    }

    fn get(&self, address: u32, length: u8) -> Value {
        unsafe { prefix_trie_c_v4_get(&mut { self.0 }, address, length) }
    }

    fn len(&self, count: &mut usize) -> u32 {
        unsafe { prefix_trie_c_v4_len(&mut { self.0 }, count) }
    }

    fn longest(&self, address: u32, length: u8, entry: &mut V4Entry) -> u32 {
        unsafe { prefix_trie_c_v4_match(&mut { self.0 }, address, length, entry) }
    }

    fn shortest(&self, address: u32, length: u8, entry: &mut V4Entry) -> u32 {
        unsafe { prefix_trie_c_v4_shortest(&mut { self.0 }, address, length, entry) }
    }

    fn match_address(&self, address: u32) -> Found {
        unsafe { prefix_trie_c_v4_match_address(&mut { self.0 }, address) }
    }

    fn match_all(&self, addresses: &[u32], entries: &mut [V4Entry]) -> u32 {
        let (count, entry_count) = (addresses.len(), entries.len());
        unsafe {
            prefix_trie_c_v4_match_all(&mut { self.0 }, addresses.as_ptr(), count, entries.as_mut_ptr(), entry_count)
        }
    }

    fn covers(&self, at: (u32, u8), entries: &mut [V4Entry], count: &mut usize) -> u32 {
        unsafe { prefix_trie_c_v4_covers(&mut { self.0 }, at.0, at.1, entries.as_mut_ptr(), entries.len(), count) }
    }

    fn next(&self, after: (u32, u8), inclusive: bool, entries: &mut [V4Entry], count: &mut usize) -> u32 {
        let (limit, entries) = (entries.len(), entries.as_mut_ptr());
        unsafe { prefix_trie_c_v4_next(&mut { self.0 }, after.0, after.1, inclusive, entries, limit, count) }
    }

    fn insert_all(&mut self, entries: &[V4Entry], count: &mut usize) -> u32 {
        unsafe { prefix_trie_c_v4_insert_all(&mut self.0, entries.as_ptr(), entries.len(), count) }
    }

    fn contained(&self, at: (u32, u8), entries: &mut [V4Entry], count: &mut usize) -> u32 {
        unsafe { prefix_trie_c_v4_contained(&mut { self.0 }, at.0, at.1, entries.as_mut_ptr(), entries.len(), count) }
    }

    fn compile(&self, compiled: &mut Compiled) -> u32 {
        unsafe { prefix_trie_c_compile(&mut { self.0 }, &mut compiled.0) }
    }

    fn v6_insert(&mut self, high: u64, low: u64, length: u8, value: u64) -> u32 {
        unsafe { prefix_trie_c_v6_insert(&mut self.0, high, low, length, value) }
    }

    fn v6_longest(&self, high: u64, low: u64, length: u8, entry: &mut V6Entry) -> u32 {
        unsafe { prefix_trie_c_v6_match(&mut { self.0 }, high, low, length, entry) }
    }

    fn v6_match_address(&self, high: u64, low: u64) -> Found {
        unsafe { prefix_trie_c_v6_match_address(&mut { self.0 }, high, low) }
    }
}

impl Drop for Table {
    fn drop(&mut self) {
        self.free();
    }
}

/// A compiled table, or null. Each is freed once. Those that `share` made of one may be on different threads.
struct Compiled(*mut prefix_trie_table);

// Safety: as that of a table.
impl Compiled {
    const NULL: Compiled = Compiled(null_mut());

    fn share(&self, shared: &mut Compiled) -> u32 {
        unsafe { prefix_trie_c_table_share(&mut { self.0 }, &mut shared.0) }
    }

    fn lookup(&self, address: u32) -> Value {
        unsafe { prefix_trie_c_table_v4_lookup(&mut { self.0 }, address) }
    }

    fn lookup_bulk(&self, addresses: &[u32], results: &mut [Value]) -> u32 {
        let (count, result_count) = (addresses.len(), results.len());
        unsafe {
            prefix_trie_c_table_v4_lookup_bulk(
                &mut { self.0 },
                addresses.as_ptr(),
                count,
                results.as_mut_ptr(),
                result_count,
            )
        }
    }
}

impl Drop for Compiled {
    fn drop(&mut self) {
        unsafe { prefix_trie_c_table_free(&mut self.0) }
    }
}

fn v4(a: u32, b: u32, c: u32, d: u32) -> u32 {
    a << 24 | b << 16 | c << 8 | d
}

/// Ends the program if a call failed.
fn done(code: u32) {
    if code != 0 {
        eprintln!("the call returned {code}");
        exit(1);
    }
}

fn print_v4(entry: &V4Entry) {
    let [a, b, c, d] = entry.address.to_be_bytes();
    match entry.found {
        true => println!("  {a}.{b}.{c}.{d}/{}: {}", entry.length, entry.value),
        false => println!("  no route"),
    }
}

fn print_v6(entry: &V6Entry) {
    println!("  {:016x}{:016x}/{}: {}", entry.high, entry.low, entry.length, entry.value);
}

fn insert(table: &mut Table) {
    done(table.new());
    done(table.insert(v4(0, 0, 0, 0), 0, 1));
    done(table.insert(v4(10, 0, 0, 0), 8, 2));
    done(table.insert(v4(10, 1, 0, 0), 16, 3));
    done(table.insert(v4(192, 168, 7, 0), 24, 4));
    done(table.v6_insert(0x2001_0db8_0000_0000, 0, 32, 5));
    done(table.v6_insert(0x2001_0db8_0001_0000, 0, 48, 6));
}

fn look_up(table: &mut Table) {
    let (mut value, mut found, mut found6) = (0, V4Entry::default(), V6Entry::default());
    let stored = table.get(v4(10, 1, 0, 0), 16);
    done(stored.code);
    println!("10.1.0.0/16 has the value {}", stored.value);
    println!("the longest match of 10.1.2.3:");
    done(table.longest(v4(10, 1, 2, 3), 32, &mut found));
    print_v4(&found);
    let of_address = table.match_address(v4(10, 2, 0, 1));
    done(of_address.code.into());
    println!("10.2.0.1 is in a network of length {}: {}", of_address.length, of_address.value);
    done(table.remove(0, 0, &mut value));
    println!("removed the default route, {value}");
    println!("the longest matches of three addresses:");
    let mut matches = [V4Entry::default(); 3];
    done(table.match_all(&[v4(10, 1, 2, 3), v4(10, 2, 0, 1), v4(8, 8, 8, 8)], &mut matches));
    matches.iter().for_each(print_v4);
    println!("the longest match of 2001:db8:1::1:");
    done(table.v6_longest(0x2001_0db8_0001_0000, 1, 128, &mut found6));
    print_v6(&found6);
    let of_address = table.v6_match_address(0x2001_0db8_0002_0000, 1);
    done(of_address.code.into());
    println!("2001:db8:2::1 is in a network of length {}: {}", of_address.length, of_address.value);
}

/// All IPv4 routes, two at a time.
fn walk(table: &Table) {
    let (mut page, mut count, mut all) = ([V4Entry::default(); 2], 0, 0);
    done(table.len(&mut all));
    println!("{all} IPv4 routes:");
    done(table.next((0, 0), true, &mut page, &mut count));
    while count > 0 {
        page[..count].iter().for_each(print_v4);
        let last = page[count - 1];
        done(table.next((last.address, last.length), false, &mut page, &mut count));
    }
}

/// A route with another value, the routes that contain an address, and a table without routes.
fn change(table: &mut Table) {
    let (mut shortest, mut covers, mut count) = (V4Entry::default(), [V4Entry::default(); 33], 0);
    let replaced = table.replace(v4(10, 0, 0, 0), 8, 9);
    done(replaced.code);
    println!("10.0.0.0/8 had the value {}", replaced.value);
    println!("the shortest match of 10.1.2.3, and all its matches:");
    done(table.shortest(v4(10, 1, 2, 3), 32, &mut shortest));
    print_v4(&shortest);
    done(table.covers((v4(10, 1, 2, 3), 32), &mut covers, &mut count));
    covers[..count].iter().for_each(print_v4);
    done(table.clear());
    done(table.len(&mut count));
    println!("{count} IPv4 routes after clear");
}

/// Routes from an array, those in a network, and a compiled table that does not change.
fn compile(table: &mut Table) {
    let route = |address, length, value| V4Entry { value, address, length, found: false };
    let routes = [route(v4(10, 0, 0, 0), 8, 7), route(v4(10, 1, 0, 0), 16, 8), route(v4(192, 168, 7, 0), 24, 9)];
    let (mut contained, mut count) = ([V4Entry::default(); 3], 0);
    done(table.insert_all(&routes, &mut count));
    println!("inserted {count} routes; those in 10.0.0.0/7:");
    done(table.contained((v4(10, 0, 0, 0), 7), &mut contained, &mut count));
    contained[..count].iter().for_each(print_v4);
    let (mut compiled, mut shared) = (Compiled::NULL, Compiled::NULL);
    done(table.compile(&mut compiled));
    done(compiled.share(&mut shared));
    done(table.clear());
    println!("compiled: 10.2.0.1 has the value {}", compiled.lookup(v4(10, 2, 0, 1)).value);
    drop(compiled);
    let mut values = [Value { value: 0, code: 0 }; 2];
    done(shared.lookup_bulk(&[v4(10, 1, 2, 3), v4(8, 8, 8, 8)], &mut values));
    println!("two more: {}, and code {}", values[0].value, values[1].code);
}

/// The codes of calls that cannot be done.
fn refuse(table: &mut Table) {
    println!("no entry: {}", table.get(v4(10, 1, 0, 0), 17).code);
    println!("no match: {}", table.match_address(v4(8, 8, 8, 8)).code);
    println!("length 33: {}", table.insert(0, 33, 1));
    println!("length 129: {}", table.v6_insert(0, 0, 129, 1));
    println!("a second new: {}", table.new());
    let (mut null, mut value) = (Table::NULL, 0);
    let found = null.get(0, 0).code;
    let removed = null.remove(0, 0, &mut value);
    println!("null: {found} {removed} {}", null.match_address(0).code);
}

fn main() {
    let mut table = Table::NULL;
    insert(&mut table);
    look_up(&mut table);
    walk(&table);
    change(&mut table);
    compile(&mut table);
    refuse(&mut table);
    table.free();
    table.free();
    println!("after free: {}", table.insert(0, 0, 1));
}
