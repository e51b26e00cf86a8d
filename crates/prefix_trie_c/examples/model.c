/*
 * Random calls of both families beside a model, a plain array of networks. It stops at the first call whose code or
 * results differ from the model's.
 */
#include <stdio.h>
#include <stdlib.h>
#include <string.h>

#include "prefix_trie.h"

#define CALLS 20000
#define MOST 400

/* A network: the first `length` bits of a number of 128 bits. An IPv4 address is its first 32 bits. */
typedef struct network {
    uint64_t high, low;
    uint8_t length;
} network;

typedef struct item {
    network at;
    uint64_t value;
} item;

/* The model of one family, in listing order, and the table. */
typedef struct model {
    int width;
    size_t count;
    item items[MOST];
} model;

static prefix_trie *table;
static uint64_t state = UINT64_C(0x9e3779b97f4a7c15);
static unsigned call_number;

static uint64_t random_bits(void) {
    state ^= state << 13;
    state ^= state >> 7;
    state ^= state << 17;
    return state * UINT64_C(0x2545f4914f6cdd1d);
}

static void must(int holds, const char *what) {
    if (holds) return;
    fprintf(stderr, "call %u: %s\n", call_number, what);
    exit(1);
}

static network masked(network n) {
    if (n.length <= 64) {
        n.low = 0;
        n.high = n.length == 0 ? 0 : n.high >> (64 - n.length) << (64 - n.length);
    } else if (n.length < 128) {
        n.low = n.low >> (128 - n.length) << (128 - n.length);
    }
    return n;
}

static int contains(network outer, network inner) {
    inner.length = outer.length <= inner.length ? outer.length : 0;
    inner = masked(inner);
    return inner.length == outer.length && inner.high == outer.high && inner.low == outer.low;
}

static int compare(network a, network b) {
    if (a.high != b.high) return a.high < b.high ? -1 : 1;
    if (a.low != b.low) return a.low < b.low ? -1 : 1;
    return (a.length > b.length) - (a.length < b.length);
}

/* The place of the first network that is not before this one. */
static size_t place(const model *m, network n) {
    size_t i = 0;
    while (i < m->count && compare(m->items[i].at, n) < 0) i++;
    return i;
}

static int is_stored(const model *m, network n) {
    size_t i = place(m, n);
    return i < m->count && compare(m->items[i].at, n) == 0;
}

/* A network of few, so that many are stored, and sometimes one with a length above the width. */
static network random_network(int width) {
    static const uint64_t firsts[4] = {0, UINT64_C(0x0a01000000000000), UINT64_C(0x20010db800000000), UINT64_MAX};
    network n = {firsts[random_bits() % 4], 0, 0};
    n.high ^= random_bits() % 4 << (random_bits() % 61);
    n.length = (uint8_t)(random_bits() % (uint64_t)(width + 2));
    if (width == 32) {
        n.high = n.high >> 32 << 32;
    } else {
        n.low = random_bits() % 4 << (random_bits() % 61);
    }
    return n;
}

/* An entry of either family. */
typedef struct found {
    item item;
    int is_found;
} found;

static found of_v4(prefix_trie_v4_entry e) {
    found f = {{{(uint64_t)e.address << 32, 0, e.length}, e.value}, e.found};
    return f;
}

static found of_v6(prefix_trie_v6_entry e) {
    found f = {{{e.high, e.low, e.length}, e.value}, e.found};
    return f;
}

static void must_be(found f, const item *wanted, const char *what) {
    must(f.is_found == (wanted != NULL), what);
    if (wanted) must(compare(f.item.at, wanted->at) == 0 && f.item.value == wanted->value, what);
}

static uint32_t v4_of(network n) {
    return (uint32_t)(n.high >> 32);
}

static void put(model *m, network at, uint64_t value) {
    size_t i = place(m, at);
    if (!is_stored(m, at)) {
        memmove(&m->items[i + 1], &m->items[i], (m->count - i) * sizeof(item));
        m->count++;
    }
    m->items[i].at = at;
    m->items[i].value = value;
}

static void change(model *m, network n) {
    network at = masked(n);
    size_t i = place(m, at);
    int stored = is_stored(m, at);
    uint64_t value = random_bits(), before = 7;
    uint32_t code;
    if (random_bits() % 2 == 0 && (stored || m->count < MOST)) {
        prefix_trie_replaced r = m->width == 32 ? prefix_trie_v4_replace(table, v4_of(n), n.length, value)
                                                : prefix_trie_v6_replace(table, n.high, n.low, n.length, value);
        must(r.code == PREFIX_TRIE_DONE && r.found == stored, "replace");
        must(r.value == (stored ? m->items[i].value : 0), "the value before");
        put(m, at, value);
        return;
    }
    code = m->width == 32 ? prefix_trie_v4_remove(table, v4_of(n), n.length, &before)
                          : prefix_trie_v6_remove(table, n.high, n.low, n.length, &before);
    must(code == (stored ? PREFIX_TRIE_DONE : PREFIX_TRIE_MISSING), "remove");
    must(before == (stored ? m->items[i].value : 7), "the value that was removed");
    if (stored) {
        m->count--;
        memmove(&m->items[i], &m->items[i + 1], (m->count - i) * sizeof(item));
    }
}

/* Several networks in one call, up to the first whose length is above the width. */
static void insert_many(model *m) {
    prefix_trie_v4_entry e4[3];
    prefix_trie_v6_entry e6[3];
    size_t wanted = 3, got = 99;
    network n[3];
    uint32_t code;
    if (m->count + 3 > MOST) return;
    for (size_t i = 0; i < 3; i++) {
        n[i] = random_network(m->width);
        if (n[i].length > m->width && wanted == 3) wanted = i;
        e4[i] = (prefix_trie_v4_entry){i, v4_of(n[i]), n[i].length, false};
        e6[i] = (prefix_trie_v6_entry){i, n[i].high, n[i].low, n[i].length, false};
    }
    code = m->width == 32 ? prefix_trie_v4_insert_all(table, e4, 3, &got) : prefix_trie_v6_insert_all(table, e6, 3, &got);
    must(code == (wanted == 3 ? PREFIX_TRIE_DONE : PREFIX_TRIE_LENGTH) && got == wanted, "insert_all");
    for (size_t i = 0; i < wanted; i++) put(m, masked(n[i]), i);
}

static void look_up(const model *m, network n) {
    network at = masked(n);
    const item *shortest = NULL, *longest = NULL, *covers[129];
    size_t i, count = 0, got = 0;
    uint64_t value = 7;
    uint32_t code;
    found f[129];
    prefix_trie_v4_entry e4[129], one4 = {0, 0, 0, false};
    prefix_trie_v6_entry e6[129], one6 = {0, 0, 0, 0, false};
    for (i = 0; i < m->count; i++) {
        if (contains(m->items[i].at, at)) covers[count++] = &m->items[i];
    }
    if (count > 0) {
        shortest = covers[0];
        longest = covers[count - 1];
    }
    code = m->width == 32 ? prefix_trie_v4_get(table, v4_of(n), n.length, &value)
                          : prefix_trie_v6_get(table, n.high, n.low, n.length, &value);
    must(code == (is_stored(m, at) ? PREFIX_TRIE_DONE : PREFIX_TRIE_MISSING), "get");
    must(value == (is_stored(m, at) ? longest->value : 7), "the value");
    code = m->width == 32 ? prefix_trie_v4_match(table, v4_of(n), n.length, &one4)
                          : prefix_trie_v6_match(table, n.high, n.low, n.length, &one6);
    must(code == (longest ? PREFIX_TRIE_DONE : PREFIX_TRIE_MISSING), "match");
    must_be(m->width == 32 ? of_v4(one4) : of_v6(one6), longest, "the longest match");
    code = m->width == 32 ? prefix_trie_v4_shortest(table, v4_of(n), n.length, &one4)
                          : prefix_trie_v6_shortest(table, n.high, n.low, n.length, &one6);
    must(code == (shortest ? PREFIX_TRIE_DONE : PREFIX_TRIE_MISSING), "shortest");
    must_be(m->width == 32 ? of_v4(one4) : of_v6(one6), shortest, "the shortest match");
    code = m->width == 32 ? prefix_trie_v4_covers(table, v4_of(n), n.length, e4, 129, &got)
                          : prefix_trie_v6_covers(table, n.high, n.low, n.length, e6, 129, &got);
    must(code == PREFIX_TRIE_DONE && got == count, "covers");
    for (i = 0; i < got; i++) {
        f[i] = m->width == 32 ? of_v4(e4[i]) : of_v6(e6[i]);
        must_be(f[i], covers[i], "an entry that covers");
    }
}

/* The longest match of an address, by itself and in an array. */
static void look_up_address(const model *m, network n) {
    const item *longest = NULL;
    prefix_trie_found r;
    n.length = (uint8_t)m->width;
    for (size_t i = 0; i < m->count; i++) {
        if (contains(m->items[i].at, n)) longest = &m->items[i];
    }
    if (m->width == 32) {
        uint32_t address = v4_of(n);
        prefix_trie_v4_entry e;
        r = prefix_trie_v4_match_address(table, address);
        must(prefix_trie_v4_match_all(table, &address, &e, 1) == PREFIX_TRIE_DONE, "match_all");
        must_be(of_v4(e), longest, "a match of many");
    } else {
        uint8_t bytes[16];
        prefix_trie_v6_address address = {n.high, n.low}, again;
        prefix_trie_v6_entry e;
        prefix_trie_v6_to_bytes(address, bytes);
        again = prefix_trie_v6_of_bytes(bytes);
        must(again.high == n.high && again.low == n.low && bytes[0] == n.high >> 56, "16 bytes");
        r = prefix_trie_v6_match_address(table, n.high, n.low);
        must(prefix_trie_v6_match_all(table, &address, &e, 1) == PREFIX_TRIE_DONE, "match_all");
        must_be(of_v6(e), longest, "a match of many");
    }
    must(r.code == (longest ? PREFIX_TRIE_DONE : PREFIX_TRIE_MISSING), "match_address");
    must(r.value == (longest ? longest->value : 0) && r.length == (longest ? longest->at.length : 0), "its results");
}

/* A page of the walk. The entries past its count are as they were. */
static void walk(const model *m, network n) {
    network at = masked(n);
    bool inclusive = random_bits() % 2;
    size_t limit = random_bits() % 5, got = 99, first = place(m, at), length;
    uint32_t code;
    prefix_trie_v4_entry e4[4];
    prefix_trie_v6_entry e6[4];
    memset(e4, 0x55, sizeof e4);
    memset(e6, 0x55, sizeof e6);
    if (!inclusive && is_stored(m, at)) first++;
    code = m->width == 32 ? prefix_trie_v4_next(table, v4_of(n), n.length, inclusive, e4, limit, &got)
                          : prefix_trie_v6_next(table, n.high, n.low, n.length, inclusive, e6, limit, &got);
    must(code == PREFIX_TRIE_DONE && got == (m->count - first < limit ? m->count - first : limit), "next");
    for (size_t i = 0; i < got; i++) {
        must_be(m->width == 32 ? of_v4(e4[i]) : of_v6(e6[i]), &m->items[first + i], "an entry of a walk");
    }
    for (size_t i = got; i < 4; i++) {
        must(e4[i].address == 0x55555555 || m->width != 32, "an entry past the count");
        must(e6[i].high == UINT64_C(0x5555555555555555) || m->width == 32, "an entry past the count");
    }
    code = m->width == 32 ? prefix_trie_v4_len(table, &length) : prefix_trie_v6_len(table, &length);
    must(code == PREFIX_TRIE_DONE && length == m->count, "len");
}

/* The networks that one contains, which are neighbours in listing order. */
static void look_inside(const model *m, network n) {
    network at = masked(n);
    size_t limit = random_bits() % 5, got = 99, first = place(m, at), count = 0;
    uint32_t code;
    prefix_trie_v4_entry e4[4];
    prefix_trie_v6_entry e6[4];
    while (first + count < m->count && contains(at, m->items[first + count].at)) count++;
    code = m->width == 32 ? prefix_trie_v4_contained(table, v4_of(n), n.length, e4, limit, &got)
                          : prefix_trie_v6_contained(table, n.high, n.low, n.length, e6, limit, &got);
    must(code == PREFIX_TRIE_DONE && got == (count < limit ? count : limit), "contained");
    for (size_t i = 0; i < got; i++) {
        must_be(m->width == 32 ? of_v4(e4[i]) : of_v6(e6[i]), &m->items[first + i], "a network that is contained");
    }
}

/* A compiled table has the longest matches of the table, also after the table has other entries. */
static void compile(void) {
    enum { MANY = 300 };
    static uint32_t a4[MANY];
    static prefix_trie_v6_address a6[MANY];
    static prefix_trie_found f4[MANY], f6[MANY];
    static prefix_trie_value r4[MANY], r6[MANY];
    prefix_trie_table *compiled, *shared;
    size_t i, count = random_bits() % MANY;
    uint64_t value = 7;
    must(prefix_trie_compile(table, &compiled) == PREFIX_TRIE_DONE, "compile");
    must(prefix_trie_table_share(compiled, &shared) == PREFIX_TRIE_DONE, "share");
    for (i = 0; i < count; i++) {
        network n = random_network(128);
        a4[i] = v4_of(n);
        a6[i].high = n.high;
        a6[i].low = n.low;
        f4[i] = prefix_trie_v4_match_address(table, a4[i]);
        f6[i] = prefix_trie_v6_match_address(table, n.high, n.low);
    }
    prefix_trie_v4_remove(table, a4[0], 32, &value);
    prefix_trie_v4_insert(table, a4[0], 32, 1);
    prefix_trie_table_free(compiled);
    must(prefix_trie_table_v4_lookup_bulk(shared, a4, r4, count) == PREFIX_TRIE_DONE, "IPv4 lookups");
    must(prefix_trie_table_v6_lookup_bulk(shared, a6, r6, count) == PREFIX_TRIE_DONE, "IPv6 lookups");
    for (i = 0; i < count; i++) {
        prefix_trie_value one4 = prefix_trie_table_v4_lookup(shared, a4[i]);
        prefix_trie_value one6 = prefix_trie_table_v6_lookup(shared, a6[i].high, a6[i].low);
        must(one4.code == f4[i].code && one4.value == f4[i].value, "an IPv4 lookup");
        must(one6.code == f6[i].code && one6.value == f6[i].value, "an IPv6 lookup");
        must(r4[i].code == one4.code && r4[i].value == one4.value, "one of many IPv4 lookups");
        must(r6[i].code == one6.code && r6[i].value == one6.value, "one of many IPv6 lookups");
    }
    prefix_trie_table_free(shared);
    if (value == 7) {
        must(prefix_trie_v4_remove(table, a4[0], 32, &value) == PREFIX_TRIE_DONE, "the network of an address");
    } else {
        must(prefix_trie_v4_insert(table, a4[0], 32, value) == PREFIX_TRIE_DONE, "the network of an address");
    }
}

static void too_long(const model *m, network n) {
    prefix_trie_v4_entry e4;
    prefix_trie_v6_entry e6;
    size_t count = 7;
    must((m->width == 32 ? prefix_trie_v4_insert(table, v4_of(n), n.length, 1)
                         : prefix_trie_v6_insert(table, n.high, n.low, n.length, 1)) == PREFIX_TRIE_LENGTH, "length");
    must((m->width == 32 ? prefix_trie_v4_next(NULL, v4_of(n), n.length, true, &e4, 1, &count)
                         : prefix_trie_v6_next(NULL, n.high, n.low, n.length, true, &e6, 1, &count)) ==
             PREFIX_TRIE_LENGTH && count == 7, "length comes before null");
}

int main(void) {
    static model models[2] = {{.width = 32}, {.width = 128}};
    table = prefix_trie_new();
    must(table != NULL, "new");
    for (call_number = 0; call_number < CALLS; call_number++) {
        model *m = &models[random_bits() % 2];
        network n = random_network(m->width);
        if (n.length > m->width) {
            too_long(m, n);
        } else if (random_bits() % 5000 == 0) {
            must(prefix_trie_clear(table) == PREFIX_TRIE_DONE, "clear");
            models[0].count = models[1].count = 0;
        } else {
            change(m, n);
            look_up(m, n);
            look_up_address(m, random_network(m->width));
            walk(m, n);
            look_inside(m, n);
            if (random_bits() % 10 == 0) insert_many(m);
            if (random_bits() % 500 == 0) compile();
        }
    }
    printf("%u random calls as the model says, with %zu and %zu networks at the end\n", call_number, models[0].count,
           models[1].count);
    prefix_trie_free(table);
    return 0;
}
