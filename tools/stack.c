/* How much stack each call takes, in KiB, rounded up: on a thread whose stack was painted before, on inputs made to go deep and
 * to touch every large local. Prints a line for each call; fails if one takes more than NETKAT_STACK, less a page.
 *
 * The inputs: policies as deep as 512 nodes allow (nested stars and negations, sequences that nest to either side, sums, and mixtures,
 * over a dup, a change or a test), with 63 dups where they have many, on 1,024 packets: one of two policies names of each field all values
 * but the last; tables and traces of these; a chain of 63 dups, whose rows are one more than fit; the deepest parentheses; eight fields,
 * most with long names, in tables of opposite orders. What lies below the frame that makes the call is counted, so that of the smallest
 * calls the thread's own end shows. Each call runs once unpainted, so that what the loader does at a first call is not counted. */
#define _GNU_SOURCE
#include <pthread.h>
#include <stdio.h>
#include <stdlib.h>
#include <string.h>
#include <sys/mman.h>

#include "netkat.h"

#define PAINT 0xA5
#define DUPS 63
#define ROWS 1500
#define ROOM ((size_t)NETKAT_STACK + (1 << 20))

struct policy {
    uint8_t kind[NETKAT_NODES];
    uint16_t first[NETKAT_NODES], second[NETKAT_NODES];
    size_t nodes, dups;
};

#define FIELDS NETKAT_FIELDS
#define NAMED(digit) {2, 'f', digit}
#define LONG(digit) {15, 'f', 'i', 'e', 'l', 'd', 'o', 'f', 'a', 'h', 'e', 'a', 'd', 'e', 'r', digit}

/* names that the texts use, and long ones in both tables in different orders, which tests compare most of */
static const uint8_t names[FIELDS][NETKAT_CELL] = {
    NAMED('0'), NAMED('1'), LONG('2'), LONG('3'), LONG('4'), LONG('5'), LONG('6'), LONG('7')};
static const uint8_t turned[FIELDS][NETKAT_CELL] = {
    LONG('7'), LONG('6'), LONG('5'), LONG('4'), LONG('3'), LONG('2'), NAMED('1'), NAMED('0')};
static const uint16_t sizes[FIELDS] = {2, 2, 2, 2, 2, 2, 4, 4}, turned_sizes[FIELDS] = {4, 4, 2, 2, 2, 2, 2, 2};
#define TABLES *names, sizeof names, sizes, FIELDS, *turned, sizeof turned, turned_sizes, FIELDS

/* the same values named in a text */
#define VALUE(field, value) ";fieldofaheader" field "=" value
static const uint8_t naming[] = "dup+drop;f0=0;f1=0" VALUE("2", "0") VALUE("3", "0") VALUE("4", "0") VALUE("5", "0")
    VALUE("6", "0") VALUE("6", "1") VALUE("6", "2") VALUE("7", "0") VALUE("7", "1") VALUE("7", "2");
#define NAMES naming, sizeof naming - 1

static struct policy one, other;
static uint16_t packet[NETKAT_ROWS], parent[NETKAT_ROWS], trace[NETKAT_ROWS];
static uint64_t left[NETKAT_ROWS], right[NETKAT_ROWS], answer[NETKAT_NUMBERS];
static uint32_t work[NETKAT_WORK];
static netkat_row records[NETKAT_ROWS];
static uint8_t text[4096];
static size_t text_length, rows, room = ROWS;

static size_t node(struct policy *p, unsigned kind, size_t first, size_t second) {
    p->kind[p->nodes] = (uint8_t)kind;
    p->first[p->nodes] = (uint16_t)first;
    p->second[p->nodes] = (uint16_t)second;
    if (kind == 5) p->dups++;
    return p->nodes++;
}

/* a leaf: a dup as long as there may be one, now and then, else a change or a test */
static size_t leaf(struct policy *p, size_t i) {
    if (i % 3 == 0 && p->dups < DUPS) return node(p, 5, 0, 0);
    return node(p, i % 3 == 1 ? 4 : 3, i % FIELDS, (i / FIELDS) % sizes[i % FIELDS]);
}

/* a leaf that may be negated */
static size_t test(struct policy *p, size_t i) {
    return node(p, i % 2 ? 2 : 3, i % FIELDS, (i / FIELDS) % sizes[i % FIELDS]);
}

/* nodes that name values */
#define NAMING 26

/* the policy, and beside it tests that no packet comes to and that name of each field all values but the last */
static void name_values(struct policy *p) {
    size_t policy = p->nodes - 1, top = node(p, 0, 0, 0);
    for (size_t field = 0; field < FIELDS; field++)
        for (size_t value = 0; value + 1 < sizes[field]; value++) {
            size_t tested = node(p, 2, field, value);
            top = node(p, 7, top, tested);
        }
    node(p, 6, policy, top);
}

/* shapes: 0 nested stars over a dup, 1 over id, 2 sequences that nest to the left, 3 to the right, 4 sums, 5 a star of a sequence of the
 * same, 6 a star of a sum of the same, 7 a sequence of a leaf and a star of the same, 8 nested negations, 9 a negation of a sequence of
 * the same, 10 a negation of a sum of the same */
#define SHAPES 11
static void build(struct policy *p, int shape, int names) {
    memset(p, 0, sizeof *p);
    size_t most = names ? NETKAT_NODES - NAMING : NETKAT_NODES;
    size_t top = shape > 7 ? node(p, 2, 0, 0) : shape == 1 ? node(p, 1, 0, 0) : node(p, 5, 0, 0);
    for (size_t i = 1; p->nodes + (shape < 2 || shape == 8 ? 1 : 3) <= most; i++) {
        switch (shape) {
        case 0: case 1: top = node(p, 8, top, 0); break;
        case 2: { size_t l = leaf(p, i); top = node(p, 7, top, l); break; }
        case 3: { size_t l = leaf(p, i); top = node(p, 7, l, top); break; }
        case 4: { size_t l = leaf(p, i); top = node(p, 6, l, top); break; }
        case 5: { size_t l = leaf(p, i); top = node(p, 8, node(p, 7, top, l), 0); break; }
        case 6: { size_t l = leaf(p, i); top = node(p, 8, node(p, 6, top, l), 0); break; }
        case 8: top = node(p, 9, top, 0); break;
        case 9: { size_t l = test(p, i); top = node(p, 9, node(p, 7, l, top), 0); break; }
        case 10: { size_t l = test(p, i); top = node(p, 9, node(p, 6, l, top), 0); break; }
        default: { size_t l = leaf(p, i); top = node(p, 7, l, node(p, 8, top, 0)); break; }
        }
    }
    if (names) name_values(p);
}

/* dups one after the other, which nest to the left: 64 rows for each packet */
static void chain(struct policy *p) {
    memset(p, 0, sizeof *p);
    size_t top = node(p, 5, 0, 0);
    while (p->dups < DUPS) top = node(p, 7, top, node(p, 5, 0, 0));
}

#define POLICY(p) (p).kind, (p).nodes, (p).first, (p).nodes, (p).second, (p).nodes
#define LISTS(n) packet, n, left, n, right, n, parent, n, trace, n, work, NETKAT_WORK

static void values(void) { uint16_t v[FIELDS]; netkat_values(TABLES, POLICY(one), POLICY(other), 1023, v, FIELDS, answer); }
static void number(void) { uint16_t v[FIELDS] = {0}; netkat_number(TABLES, POLICY(one), POLICY(other), v, FIELDS, answer); }
static void policy(void) { netkat_policy(TABLES, POLICY(one), answer); }
static void policies(void) { netkat_policies(TABLES, POLICY(one), POLICY(other), answer); }
static void reads(void) { netkat_read(TABLES, 2, text, text_length, other.kind, 512, other.first, 512, other.second, 512, answer); }
static void search(void) { netkat_search(TABLES, POLICY(one), POLICY(other), LISTS(room), answer); }
static void texts(void) {
    netkat_search_texts(TABLES, text, text_length, NAMES, LISTS(room), answer);
    netkat_search_texts(TABLES, NAMES, text, text_length, LISTS(room), answer);
}
static void evidence(void) { netkat_evidence(TABLES, POLICY(one), POLICY(other), packet, rows, left, rows, right, rows, work, NETKAT_WORK, answer); }
static void evidence_rows(void) { netkat_evidence_rows(TABLES, POLICY(one), POLICY(other), records, rows, work, NETKAT_WORK, answer); }
static void traces(void) { netkat_trace(TABLES, POLICY(one), POLICY(other), 0, trace, 8, work, NETKAT_WORK, answer); }

static uint8_t *base;

static void *run(void *call) {
    base = __builtin_frame_address(0);
    (*(void (**)(void))call)();
    return NULL;
}

/* bytes of a painted stack below the thread's own frame that are changed when it has made the call */
static size_t taken(void (*call)(void)) {
    uint8_t *stack = mmap(NULL, ROOM, PROT_READ | PROT_WRITE, MAP_PRIVATE | MAP_ANONYMOUS, -1, 0);
    pthread_attr_t attributes;
    pthread_t thread;
    if (stack == MAP_FAILED) exit(2);
    memset(stack, PAINT, ROOM);
    if (pthread_attr_init(&attributes) || pthread_attr_setstack(&attributes, stack, ROOM) ||
        pthread_create(&thread, &attributes, run, &call) || pthread_join(thread, NULL)) exit(2);
    pthread_attr_destroy(&attributes);
    size_t low = 0;
    while (low < ROOM && stack[low] == PAINT) low++;
    size_t bytes = (size_t)(base - (stack + low));
    munmap(stack, ROOM);
    return bytes;
}

struct call {
    const char *name;
    void (*call)(void);
    size_t most;
};

static struct call calls[] = {
    {"netkat_values", values, 0}, {"netkat_number", number, 0}, {"netkat_policy", policy, 0},
    {"netkat_policies", policies, 0}, {"netkat_read", reads, 0},
    {"netkat_search", search, 0}, {"netkat_search_texts", texts, 0}, {"netkat_evidence", evidence, 0},
    {"netkat_evidence_rows", evidence_rows, 0}, {"netkat_trace", traces, 0},
};
#define CALLS (sizeof calls / sizeof *calls)

static void measure(struct call *c) {
    c->call();
    size_t bytes = taken(c->call);
    if (bytes > c->most) c->most = bytes;
}

static int of_table(const struct call *c) { return c->call == evidence || c->call == evidence_rows; }

/* the two policies have as many packets as there may be */
static void all_packets(void) {
    values();
    if (answer[0] == NETKAT_DONE) return;
    fprintf(stderr, "two policies without packet 1,023\n");
    exit(2);
}

/* the table that the search leaves, as far as it came */
static void tables(void) {
    search();
    rows = answer[0] == NETKAT_DONE ? answer[1] : room;
    for (size_t i = 0; i < rows; i++) records[i] = (netkat_row){packet[i], left[i], right[i], parent[i]};
    for (size_t i = 0; i < CALLS; i++)
        if (of_table(&calls[i])) measure(&calls[i]);
}

static void say(const char *words, size_t times) {
    for (size_t i = 0; i < times; i++) {
        memcpy(text + text_length, words, strlen(words));
        text_length += strlen(words);
    }
}

int main(void) {
    const char *innermost[] = {"dup", "f0<-1", "(dup+f0<-1;dup)*;f1=0"};
    for (int shape = 0; shape < SHAPES; shape++) {
        /* against the same and against stars; which of the two names the values */
        for (int against = 0; against < 3; against++) {
            build(&one, shape, against == 2);
            build(&other, against == 1 ? 1 : shape, against != 2);
            all_packets();
            for (size_t i = 0; i < CALLS; i++) {
                if (calls[i].call == reads || calls[i].call == texts || of_table(&calls[i])) continue;
                measure(&calls[i]);
            }
            tables();
        }
    }
    /* as many rows as there may be */
    room = NETKAT_ROWS;
    chain(&one);
    chain(&other);
    name_values(&other);
    all_packets();
    for (size_t i = 0; i < CALLS; i++)
        if (calls[i].call == search) measure(&calls[i]);
    tables();
    say("dup", 1);
    say(";dup", DUPS - 1);
    for (size_t i = 0; i < CALLS; i++)
        if (calls[i].call == texts) measure(&calls[i]);
    room = ROWS;
    for (size_t i = 0; i < sizeof innermost / sizeof *innermost; i++) {
        for (int stars = 0; stars < 2; stars++) {
            text_length = 0;
            size_t deep = i == 2 ? 63 : 64;
            say("(", deep);
            say(innermost[i], 1);
            say(stars ? ")*" : ")", deep);
            if (stars) say("*", 512 - 72);
            for (size_t c = 0; c < CALLS; c++)
                if (calls[c].call == reads || calls[c].call == texts) measure(&calls[c]);
        }
    }
    /* and with negations before each parenthesis, and a run of them inside */
    text_length = 0;
    say("!(", 64);
    say("!", 512 - 65);
    say("f0=0", 1);
    say(")", 64);
    for (size_t c = 0; c < CALLS; c++)
        if (calls[c].call == reads || calls[c].call == texts) measure(&calls[c]);
    int over = 0;
    for (size_t i = 0; i < CALLS; i++) {
        printf("%s %zu\n", calls[i].name, (calls[i].most + 1023) / 1024);
        over |= calls[i].most > (size_t)NETKAT_STACK - 4096;
    }
    if (over) fprintf(stderr, "a call takes more than NETKAT_STACK\n");
    return over;
}
