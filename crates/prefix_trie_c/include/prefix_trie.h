/*
 * Tables of IPv4 and IPv6 networks, with longest-prefix match.
 *
 * A table has a map of IPv4 networks and a map of IPv6 networks, each with values of 64 bits. `prefix_trie_new` makes
 * a table, and `prefix_trie_free` frees it. `prefix_trie_compile` makes a compiled table, which looks up an address
 * faster, does not change, and can be shared by threads. `prefix_trie_table_free` frees it. An address is a number:
 * 10.1.2.3 is 0x0a010203, and an IPv6 address is its first and its last 64 bits. A network is an address and a length.
 * Bits after the length do not count.
 *
 * Each call returns a code. It writes its other results through pointers, and only if the code is PREFIX_TRIE_DONE. The
 * calls with `match_address` or `lookup` in their names return a struct with the code, and write nothing. Calls that
 * take a const table do not write to it.
 *
 * The functions below check their pointers and pass the call on to the functions of the same names with
 * `prefix_trie_c_`, which are proved. The caller has to keep this:
 *
 * - A table is made by prefix_trie_new, and no call gets it after prefix_trie_free. A compiled table is made by
 *   prefix_trie_compile or prefix_trie_table_share, and no call gets it after prefix_trie_table_free.
 * - A table is in one call at a time, also if the calls only read, and so is a compiled table. Those that
 *   prefix_trie_table_share made of one are different, and may be in calls at the same time. The next call may come
 *   from another thread if a lock, a thread's start or join, or a sequentially consistent atomic orders the two.
 * - A pointer that is not null points to memory of its type that nothing else uses during the call.
 * - An array has at least as many items as the call is told.
 * - malloc, realloc and free come from one allocator and align as C wants it. No call comes from a signal handler, or
 *   from the forked child of a process with threads.
 */
#ifndef PREFIX_TRIE_H
#define PREFIX_TRIE_H

#include <stdbool.h>
#include <stddef.h>
#include <stdint.h>

#ifdef __cplusplus
extern "C" {
#endif

/* The version of this header, major * 65536 + minor. prefix_trie_version returns that of the library. */
#define PREFIX_TRIE_VERSION UINT32_C(1)

/*
 * The codes. If several apply, the first of these is returned: PREFIX_TRIE_NULL for a result, PREFIX_TRIE_LENGTH,
 * PREFIX_TRIE_COUNTS, PREFIX_TRIE_NULL for a table, and then what the table says.
 */
#define PREFIX_TRIE_DONE UINT32_C(0)    /* the call did what it is for */
#define PREFIX_TRIE_MISSING UINT32_C(1) /* no such network, or no match */
#define PREFIX_TRIE_MEMORY UINT32_C(2)  /* an allocation failed; the entries are unchanged */
#define PREFIX_TRIE_FULL UINT32_C(3)    /* more than 2^32 - 1 slots or ranges are needed; the entries are unchanged */
#define PREFIX_TRIE_LENGTH UINT32_C(4)  /* a length above 32 or 128 */
#define PREFIX_TRIE_NULL UINT32_C(5)    /* a null pointer */
#define PREFIX_TRIE_IN_USE UINT32_C(6)  /* a variable for a new table that is not null (prefix_trie_c_ calls only) */
#define PREFIX_TRIE_COUNTS UINT32_C(7)  /* two arrays of different lengths */

/* A table. A program has pointers to it, and no copy. */
typedef struct prefix_trie prefix_trie;

/* A compiled table: the values of the longest matches in a table, from when it was compiled. */
typedef struct prefix_trie_table prefix_trie_table;

/* A network and its value. `found` is false if there is none, and the rest is 0 then. */
typedef struct prefix_trie_v4_entry {
    uint64_t value;
    uint32_t address;
    uint8_t length;
    bool found;
} prefix_trie_v4_entry;

typedef struct prefix_trie_v6_entry {
    uint64_t value;
    uint64_t high;
    uint64_t low;
    uint8_t length;
    bool found;
} prefix_trie_v6_entry;

/* An IPv6 address: its first and its last 64 bits. */
typedef struct prefix_trie_v6_address {
    uint64_t high;
    uint64_t low;
} prefix_trie_v6_address;

/* A value, if the code is PREFIX_TRIE_DONE. Otherwise it is 0. */
typedef struct prefix_trie_value {
    uint64_t value;
    uint32_t code;
} prefix_trie_value;

/* The value of a longest match and the length of its network, if the code is PREFIX_TRIE_DONE. Otherwise both are 0. */
typedef struct prefix_trie_found {
    uint64_t value;
    uint32_t code;
    uint8_t length;
} prefix_trie_found;

/* A longest match as a proved function returns it. In this order, two registers hold it without a shift. */
typedef struct prefix_trie_c_found {
    uint64_t value;
    uint8_t length;
    uint8_t code;
} prefix_trie_c_found;

/* The code of an insertion, and the value that it replaced, if `found`. Otherwise the value is 0. */
typedef struct prefix_trie_replaced {
    uint64_t value;
    uint32_t code;
    bool found;
} prefix_trie_replaced;

/*
 * The proved functions. They take the address of a variable that points to the table, or is null. They leave it as it
 * is, except that prefix_trie_c_new, compile and share set a variable that is null, and that free makes it null. No
 * other pointer may be null. An array is a pointer and a length.
 */
uint32_t prefix_trie_c_version(void);
uint32_t prefix_trie_c_new(prefix_trie **table);
void prefix_trie_c_free(prefix_trie **table);
uint32_t prefix_trie_c_clear(prefix_trie **table);
uint32_t prefix_trie_c_v4_insert(prefix_trie **table, uint32_t address, uint8_t length, uint64_t value);
prefix_trie_replaced prefix_trie_c_v4_replace(prefix_trie **table, uint32_t address, uint8_t length,
                                                uint64_t value);
uint32_t prefix_trie_c_v4_insert_all(prefix_trie **table, const prefix_trie_v4_entry *entries, size_t entry_count,
                                     size_t *count);
uint32_t prefix_trie_c_v4_remove(prefix_trie **table, uint32_t address, uint8_t length, uint64_t *value);
prefix_trie_value prefix_trie_c_v4_get(const prefix_trie **table, uint32_t address, uint8_t length);
uint32_t prefix_trie_c_v4_len(const prefix_trie **table, size_t *count);
uint32_t prefix_trie_c_v4_match(const prefix_trie **table, uint32_t address, uint8_t length,
                                prefix_trie_v4_entry *entry);
prefix_trie_c_found prefix_trie_c_v4_match_address(const prefix_trie **table, uint32_t address);
uint32_t prefix_trie_c_v4_match_all(const prefix_trie **table, const uint32_t *addresses, size_t address_count,
                                    prefix_trie_v4_entry *entries, size_t entry_count);
uint32_t prefix_trie_c_v4_shortest(const prefix_trie **table, uint32_t address, uint8_t length,
                                   prefix_trie_v4_entry *entry);
uint32_t prefix_trie_c_v4_covers(const prefix_trie **table, uint32_t address, uint8_t length,
                                 prefix_trie_v4_entry *entries, size_t entry_count, size_t *count);
uint32_t prefix_trie_c_v4_contained(const prefix_trie **table, uint32_t address, uint8_t length,
                                    prefix_trie_v4_entry *entries, size_t entry_count, size_t *count);
uint32_t prefix_trie_c_v4_next(const prefix_trie **table, uint32_t address, uint8_t length, bool inclusive,
                               prefix_trie_v4_entry *entries, size_t entry_count, size_t *count);
uint32_t prefix_trie_c_v6_insert(prefix_trie **table, uint64_t high, uint64_t low, uint8_t length, uint64_t value);
prefix_trie_replaced prefix_trie_c_v6_replace(prefix_trie **table, uint64_t high, uint64_t low, uint8_t length,
                                                uint64_t value);
uint32_t prefix_trie_c_v6_insert_all(prefix_trie **table, const prefix_trie_v6_entry *entries, size_t entry_count,
                                     size_t *count);
uint32_t prefix_trie_c_v6_remove(prefix_trie **table, uint64_t high, uint64_t low, uint8_t length, uint64_t *value);
prefix_trie_value prefix_trie_c_v6_get(const prefix_trie **table, uint64_t high, uint64_t low, uint8_t length);
uint32_t prefix_trie_c_v6_len(const prefix_trie **table, size_t *count);
uint32_t prefix_trie_c_v6_match(const prefix_trie **table, uint64_t high, uint64_t low, uint8_t length,
                                prefix_trie_v6_entry *entry);
prefix_trie_c_found prefix_trie_c_v6_match_address(const prefix_trie **table, uint64_t high, uint64_t low);
uint32_t prefix_trie_c_v6_match_all(const prefix_trie **table, const prefix_trie_v6_address *addresses,
                                    size_t address_count, prefix_trie_v6_entry *entries, size_t entry_count);
uint32_t prefix_trie_c_v6_shortest(const prefix_trie **table, uint64_t high, uint64_t low, uint8_t length,
                                   prefix_trie_v6_entry *entry);
uint32_t prefix_trie_c_v6_covers(const prefix_trie **table, uint64_t high, uint64_t low, uint8_t length,
                                 prefix_trie_v6_entry *entries, size_t entry_count, size_t *count);
uint32_t prefix_trie_c_v6_contained(const prefix_trie **table, uint64_t high, uint64_t low, uint8_t length,
                                    prefix_trie_v6_entry *entries, size_t entry_count, size_t *count);
uint32_t prefix_trie_c_v6_next(const prefix_trie **table, uint64_t high, uint64_t low, uint8_t length, bool inclusive,
                               prefix_trie_v6_entry *entries, size_t entry_count, size_t *count);

uint32_t prefix_trie_c_compile(const prefix_trie **table, prefix_trie_table **compiled);
uint32_t prefix_trie_c_table_share(const prefix_trie_table **table, prefix_trie_table **shared);
void prefix_trie_c_table_free(prefix_trie_table **table);
prefix_trie_value prefix_trie_c_table_v4_lookup(const prefix_trie_table **table, uint32_t address);
prefix_trie_value prefix_trie_c_table_v6_lookup(const prefix_trie_table **table, uint64_t high, uint64_t low);
uint32_t prefix_trie_c_table_v4_lookup_bulk(const prefix_trie_table **table, const uint32_t *addresses,
                                            size_t address_count, prefix_trie_value *results, size_t result_count);
uint32_t prefix_trie_c_table_v6_lookup_bulk(const prefix_trie_table **table, const prefix_trie_v6_address *addresses,
                                            size_t address_count, prefix_trie_value *results, size_t result_count);

/* Returns the version of the library. */
static inline uint32_t prefix_trie_version(void) {
    return prefix_trie_c_version();
}

/* Returns a table that has no entries, or null if an allocation failed. */
static inline prefix_trie *prefix_trie_new(void) {
    prefix_trie *table = NULL;
    prefix_trie_c_new(&table);
    return table;
}

/* Frees a table. Null is no table, and nothing is done. */
static inline void prefix_trie_free(prefix_trie *table) {
    prefix_trie_c_free(&table);
}

/* Removes all entries of a table. */
static inline uint32_t prefix_trie_clear(prefix_trie *table) {
    return prefix_trie_c_clear(&table);
}

/* Sets the value of a network. */
static inline uint32_t prefix_trie_v4_insert(prefix_trie *table, uint32_t address, uint8_t length, uint64_t value) {
    return prefix_trie_c_v4_insert(&table, address, length, value);
}

/* Sets the value of a network, and returns the value that it had, if any. */
static inline prefix_trie_replaced prefix_trie_v4_replace(prefix_trie *table, uint32_t address, uint8_t length,
                                                          uint64_t value) {
    return prefix_trie_c_v4_replace(&table, address, length, value);
}

/*
 * Sets the values of the networks of an array in order, and writes how many it set. `found` is not read. A call that
 * fails keeps the networks before the one that it failed at, and none from there on. Their number is written too.
 */
static inline uint32_t prefix_trie_v4_insert_all(prefix_trie *table, const prefix_trie_v4_entry *entries,
                                                  size_t count, size_t *inserted) {
    return entries && inserted ? prefix_trie_c_v4_insert_all(&table, entries, count, inserted) : PREFIX_TRIE_NULL;
}

/* Removes a network and writes its value. */
static inline uint32_t prefix_trie_v4_remove(prefix_trie *table, uint32_t address, uint8_t length, uint64_t *value) {
    return value ? prefix_trie_c_v4_remove(&table, address, length, value) : PREFIX_TRIE_NULL;
}

/* Writes the value of a network. */
static inline uint32_t prefix_trie_v4_get(const prefix_trie *table, uint32_t address, uint8_t length, uint64_t *value) {
    if (!value) return PREFIX_TRIE_NULL;
    prefix_trie_value found = prefix_trie_c_v4_get(&table, address, length);
    if (found.code == PREFIX_TRIE_DONE) *value = found.value;
    return found.code;
}

/* Writes the number of IPv4 networks. */
static inline uint32_t prefix_trie_v4_len(const prefix_trie *table, size_t *count) {
    return count ? prefix_trie_c_v4_len(&table, count) : PREFIX_TRIE_NULL;
}

/* Writes the longest match of a network and its value. The longest match of an address is that of length 32. */
static inline uint32_t prefix_trie_v4_match(const prefix_trie *table, uint32_t address, uint8_t length,
                                            prefix_trie_v4_entry *entry) {
    return entry ? prefix_trie_c_v4_match(&table, address, length, entry) : PREFIX_TRIE_NULL;
}

/*
 * Returns the value of the longest match of an address, and the length of its network, which is that of the first bits
 * of the address. It is the fastest lookup of one address.
 */
static inline prefix_trie_found prefix_trie_v4_match_address(const prefix_trie *table, uint32_t address) {
    prefix_trie_c_found match = prefix_trie_c_v4_match_address(&table, address);
    prefix_trie_found found = {match.value, match.code, match.length};
    return found;
}

/* Writes the longest match of each address to the entry at its place. `found` says whether there is one. */
static inline uint32_t prefix_trie_v4_match_all(const prefix_trie *table, const uint32_t *addresses,
                                                prefix_trie_v4_entry *entries, size_t count) {
    return addresses && entries ? prefix_trie_c_v4_match_all(&table, addresses, count, entries, count)
                                : PREFIX_TRIE_NULL;
}

/* Writes the shortest match of a network and its value. */
static inline uint32_t prefix_trie_v4_shortest(const prefix_trie *table, uint32_t address, uint8_t length,
                                               prefix_trie_v4_entry *entry) {
    return entry ? prefix_trie_c_v4_shortest(&table, address, length, entry) : PREFIX_TRIE_NULL;
}

/*
 * Writes the entries whose networks contain a network, shortest first, at most `limit`, and their number. A network
 * contains itself. There are at most 33.
 */
static inline uint32_t prefix_trie_v4_covers(const prefix_trie *table, uint32_t address, uint8_t length,
                                             prefix_trie_v4_entry *entries, size_t limit, size_t *count) {
    return entries && count ? prefix_trie_c_v4_covers(&table, address, length, entries, limit, count)
                            : PREFIX_TRIE_NULL;
}

/*
 * Writes the entries whose networks a network contains, at most `limit`, and their number, in the order of
 * prefix_trie_v4_next. A network contains itself. If there may be more than `limit`, prefix_trie_v4_next goes on after
 * the last entry, and the first network that is not contained ends the walk.
 */
static inline uint32_t prefix_trie_v4_contained(const prefix_trie *table, uint32_t address, uint8_t length,
                                                 prefix_trie_v4_entry *entries, size_t limit, size_t *count) {
    return entries && count ? prefix_trie_c_v4_contained(&table, address, length, entries, limit, count)
                            : PREFIX_TRIE_NULL;
}

/*
 * Writes the next entries after a network, at most `limit`, and their number. A network comes before those that it
 * contains. Of two others the lower address comes first. `inclusive` says whether the network's own entry counts too,
 * if there is one: a walk over all begins with length 0 and true, and goes on after the last entry with false.
 */
static inline uint32_t prefix_trie_v4_next(const prefix_trie *table, uint32_t address, uint8_t length, bool inclusive,
                                           prefix_trie_v4_entry *entries, size_t limit, size_t *count) {
    return entries && count
               ? prefix_trie_c_v4_next(&table, address, length, inclusive, entries, limit, count)
               : PREFIX_TRIE_NULL;
}

/* Sets the value of a network. */
static inline uint32_t prefix_trie_v6_insert(prefix_trie *table, uint64_t high, uint64_t low, uint8_t length,
                                             uint64_t value) {
    return prefix_trie_c_v6_insert(&table, high, low, length, value);
}

/* Sets the value of a network, and returns the value that it had, if any. */
static inline prefix_trie_replaced prefix_trie_v6_replace(prefix_trie *table, uint64_t high, uint64_t low,
                                                          uint8_t length, uint64_t value) {
    return prefix_trie_c_v6_replace(&table, high, low, length, value);
}

/*
 * Sets the values of the networks of an array in order, and writes how many it set. `found` is not read. A call that
 * fails keeps the networks before the one that it failed at, and none from there on. Their number is written too.
 */
static inline uint32_t prefix_trie_v6_insert_all(prefix_trie *table, const prefix_trie_v6_entry *entries,
                                                  size_t count, size_t *inserted) {
    return entries && inserted ? prefix_trie_c_v6_insert_all(&table, entries, count, inserted) : PREFIX_TRIE_NULL;
}

/* Removes a network and writes its value. */
static inline uint32_t prefix_trie_v6_remove(prefix_trie *table, uint64_t high, uint64_t low, uint8_t length,
                                             uint64_t *value) {
    return value ? prefix_trie_c_v6_remove(&table, high, low, length, value) : PREFIX_TRIE_NULL;
}

/* Writes the value of a network. */
static inline uint32_t prefix_trie_v6_get(const prefix_trie *table, uint64_t high, uint64_t low, uint8_t length,
                                          uint64_t *value) {
    if (!value) return PREFIX_TRIE_NULL;
    prefix_trie_value found = prefix_trie_c_v6_get(&table, high, low, length);
    if (found.code == PREFIX_TRIE_DONE) *value = found.value;
    return found.code;
}

/* Writes the number of IPv6 networks. */
static inline uint32_t prefix_trie_v6_len(const prefix_trie *table, size_t *count) {
    return count ? prefix_trie_c_v6_len(&table, count) : PREFIX_TRIE_NULL;
}

/* Writes the longest match of a network and its value. The longest match of an address is that of length 128. */
static inline uint32_t prefix_trie_v6_match(const prefix_trie *table, uint64_t high, uint64_t low, uint8_t length,
                                            prefix_trie_v6_entry *entry) {
    return entry ? prefix_trie_c_v6_match(&table, high, low, length, entry) : PREFIX_TRIE_NULL;
}

/*
 * Returns the value of the longest match of an address, and the length of its network, which is that of the first bits
 * of the address. It is the fastest lookup of one address.
 */
static inline prefix_trie_found prefix_trie_v6_match_address(const prefix_trie *table, uint64_t high, uint64_t low) {
    prefix_trie_c_found match = prefix_trie_c_v6_match_address(&table, high, low);
    prefix_trie_found found = {match.value, match.code, match.length};
    return found;
}

/* Writes the longest match of each address to the entry at its place. `found` says whether there is one. */
static inline uint32_t prefix_trie_v6_match_all(const prefix_trie *table, const prefix_trie_v6_address *addresses,
                                                prefix_trie_v6_entry *entries, size_t count) {
    return addresses && entries ? prefix_trie_c_v6_match_all(&table, addresses, count, entries, count)
                                : PREFIX_TRIE_NULL;
}

/* Writes the shortest match of a network and its value. */
static inline uint32_t prefix_trie_v6_shortest(const prefix_trie *table, uint64_t high, uint64_t low, uint8_t length,
                                               prefix_trie_v6_entry *entry) {
    return entry ? prefix_trie_c_v6_shortest(&table, high, low, length, entry) : PREFIX_TRIE_NULL;
}

/*
 * Writes the entries whose networks contain a network, shortest first, at most `limit`, and their number. A network
 * contains itself. There are at most 129.
 */
static inline uint32_t prefix_trie_v6_covers(const prefix_trie *table, uint64_t high, uint64_t low, uint8_t length,
                                             prefix_trie_v6_entry *entries, size_t limit, size_t *count) {
    return entries && count ? prefix_trie_c_v6_covers(&table, high, low, length, entries, limit, count)
                            : PREFIX_TRIE_NULL;
}

/*
 * Writes the entries whose networks a network contains, at most `limit`, and their number, in the order of
 * prefix_trie_v6_next. A network contains itself. If there may be more than `limit`, prefix_trie_v6_next goes on after
 * the last entry, and the first network that is not contained ends the walk.
 */
static inline uint32_t prefix_trie_v6_contained(const prefix_trie *table, uint64_t high, uint64_t low, uint8_t length,
                                                 prefix_trie_v6_entry *entries, size_t limit, size_t *count) {
    return entries && count ? prefix_trie_c_v6_contained(&table, high, low, length, entries, limit, count)
                            : PREFIX_TRIE_NULL;
}

/*
 * Writes the next entries after a network, at most `limit`, and their number. A network comes before those that it
 * contains. Of two others the lower address comes first. `inclusive` says whether the network's own entry counts too,
 * if there is one: a walk over all begins with length 0 and true, and goes on after the last entry with false.
 */
static inline uint32_t prefix_trie_v6_next(const prefix_trie *table, uint64_t high, uint64_t low, uint8_t length,
                                           bool inclusive,
                                           prefix_trie_v6_entry *entries, size_t limit, size_t *count) {
    return entries && count
               ? prefix_trie_c_v6_next(&table, high, low, length, inclusive, entries, limit, count)
               : PREFIX_TRIE_NULL;
}

/*
 * Writes a compiled table with the longest matches of both families. It does not change when the table does. The code
 * is PREFIX_TRIE_FULL if the addresses of a family fall into 2^32 ranges or more.
 */
static inline uint32_t prefix_trie_compile(const prefix_trie *table, prefix_trie_table **compiled) {
    prefix_trie_table *made = NULL;
    if (!compiled) return PREFIX_TRIE_NULL;
    uint32_t code = prefix_trie_c_compile(&table, &made);
    if (code == PREFIX_TRIE_DONE) *compiled = made;
    return code;
}

/*
 * Writes another pointer to the same compiled table, which another thread may use at the same time, and has to free.
 * The table is not copied. The code is PREFIX_TRIE_MEMORY if an allocation fails, or if there are too many to count.
 */
static inline uint32_t prefix_trie_table_share(const prefix_trie_table *table, prefix_trie_table **shared) {
    prefix_trie_table *made = NULL;
    if (!shared) return PREFIX_TRIE_NULL;
    uint32_t code = prefix_trie_c_table_share(&table, &made);
    if (code == PREFIX_TRIE_DONE) *shared = made;
    return code;
}

/* Frees a compiled table, unless another pointer shares it. Null is no table, and nothing is done. */
static inline void prefix_trie_table_free(prefix_trie_table *table) {
    prefix_trie_c_table_free(&table);
}

/* Returns the value of the longest match of an address. */
static inline prefix_trie_value prefix_trie_table_v4_lookup(const prefix_trie_table *table, uint32_t address) {
    return prefix_trie_c_table_v4_lookup(&table, address);
}

static inline prefix_trie_value prefix_trie_table_v6_lookup(const prefix_trie_table *table, uint64_t high,
                                                            uint64_t low) {
    return prefix_trie_c_table_v6_lookup(&table, high, low);
}

/* Writes the result of each address at its place. This takes less time than a call for each. */
static inline uint32_t prefix_trie_table_v4_lookup_bulk(const prefix_trie_table *table, const uint32_t *addresses,
                                                        prefix_trie_value *results, size_t count) {
    return addresses && results ? prefix_trie_c_table_v4_lookup_bulk(&table, addresses, count, results, count)
                                : PREFIX_TRIE_NULL;
}

static inline uint32_t prefix_trie_table_v6_lookup_bulk(const prefix_trie_table *table,
                                                        const prefix_trie_v6_address *addresses,
                                                        prefix_trie_value *results, size_t count) {
    return addresses && results ? prefix_trie_c_table_v6_lookup_bulk(&table, addresses, count, results, count)
                                : PREFIX_TRIE_NULL;
}

/* Returns the IPv6 address of 16 bytes, as `struct in6_addr` has them in `s6_addr`. */
static inline prefix_trie_v6_address prefix_trie_v6_of_bytes(const uint8_t bytes[16]) {
    prefix_trie_v6_address address = {0, 0};
    for (int i = 0; i < 8; i++) {
        address.high = address.high << 8 | bytes[i];
        address.low = address.low << 8 | bytes[8 + i];
    }
    return address;
}

/* Writes the 16 bytes of an IPv6 address. */
static inline void prefix_trie_v6_to_bytes(prefix_trie_v6_address address, uint8_t bytes[16]) {
    for (int i = 7; i >= 0; i--) {
        bytes[i] = address.high & 255;
        bytes[8 + i] = address.low & 255;
        address.high >>= 8;
        address.low >>= 8;
    }
}

/* Returns what a code means, in English. */
static inline const char *prefix_trie_text(uint32_t code) {
    switch (code) {
    case PREFIX_TRIE_DONE: return "done";
    case PREFIX_TRIE_MISSING: return "no such network, or no match";
    case PREFIX_TRIE_MEMORY: return "out of memory";
    case PREFIX_TRIE_FULL: return "too many slots or ranges";
    case PREFIX_TRIE_LENGTH: return "a length above the width of an address";
    case PREFIX_TRIE_NULL: return "a null pointer";
    case PREFIX_TRIE_IN_USE: return "the variable points to a table";
    case PREFIX_TRIE_COUNTS: return "two arrays of different lengths";
    default: return "no such code";
    }
}

#ifdef __cplusplus
}
#endif

#endif
