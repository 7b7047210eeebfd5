/* NetKAT policies: are two of them equal, and what shows it?
 *
 * Every function is proved to answer what its comment says, whatever the contents and lengths of the lists it is lent, and
 * to return. Not proved: that this header declares the functions as they are compiled (a script compares the two), the compiler, and
 * how much time and stack a call takes; docs/TRUST.md lists what is assumed.
 *
 * Linking. libexports.a (`tools/build library`) is code for x86-64-v2 Linux (SSE4.2 and POPCNT; it does not look whether the processor has them). It calls `memcpy` and `memset` of the C library
 * and nothing else: no memory is allocated, nothing is read or written but the lists of a call.
 *
 * Lists. A list is a pointer and the number of its entries. The pointer points to so many entries and is aligned for
 * them; where the number is 0 it is not used and may be null. A list behind a pointer to const is only read. A list
 * that a function may write shares no entry with any other list of the call, and nobody else reads or writes it until the
 * call returns. Entries that a comment does not name keep their contents. `answer` is such a list, of eight entries, and is
 * never null.
 *
 * Tables. A table names the fields of a policy. Each call takes two, that of the left policy and that of the right, each as
 * two lists: names, a cell of NETKAT_CELL bytes for each name, and sizes, one for each name. A cell is the name's length and
 * then the name; its bytes past the length are not read. A name is 1 to NETKAT_NAME small letters and digits, a letter
 * first, and none of drop, id, dup; whoever fills a cell from a longer name writes a length over NETKAT_NAME. Two cells hold
 * the same name if their lengths are the same and their bytes up to it. Fields are numbered from 0: the left table's names
 * in their order, then those that only the right one has, in its order; there are 1 to NETKAT_FIELDS. A field has the values
 * 0 to its size - 1.
 *
 * Policies. A policy is three lists of equal length, 1 to 512: kind, first, second, children before parents, the last node
 * the policy. Kinds: 0 drop, 1 id, 2 test f = v, 3 test f != v, 4 change f <- v (first is the field's number, second is v), 5 dup, 6 sum,
 * 7 sequence (first and second are nodes), 8 star, 9 negation (first is a node); unused entries are 0. A negation passes the
 * packets that its child drops; below it stand kinds 0 to 3, 6, 7 and 9 only. Either policy may use every field. netkat_read makes the
 * lists from a text.
 *
 * Packets. A field is mentioned if a node of kind 2, 3 or 4 with its number stands anywhere in either policy of the call, also
 * where no packet comes to it. A packet is a number below N, the product of the mentioned fields' sizes, the first of them
 * counting slowest; N is 1 if there are none, and at most 1,024. The other fields may have any sizes and are in no number: what is
 * answered holds for all their values, and where a number is turned into values they show 0. In a trace such a field keeps the
 * entering packet's value: turning a trace back does not notice another. So a number, and with it a
 * trace or a table of rows, belongs to its two policies: with others the same number may be another packet.
 *
 * Texts. An item is drop, id, dup, sw=1, sw!=1, sw<-1 (sw a name of the table of the text's own side), anything in
 * parentheses, or ! and an item: a negation. Behind an item * is a star, ; joins a sequence, + a sum; ! binds before *, *
 * before ;, ; before +. Blanks and tabs are allowed between tokens, and != and <- are one token each.
 *
 * Answers. All eight numbers of `answer` are written; those not named below are 0. answer[0] is
 *   0 done, equal or accepted   1 left   2 right   3 both   4 neither   5 rejected   9 refused
 * and a refusal is 9, number, side (0 none, 1 left, 2 right), place:
 *    1 a table without names, or over 8 fields    2 a size is 0: field          3 N over 1,024 up to it: field
 *    4 policy lists unequal, empty, over 512; with side 0 also a table whose names are not NETKAT_CELL bytes for each of its sizes
 *    5 kind over 9: node                     6 field, value, unused entry: node
 *    7 child not below parent: parent node   8 not a child exactly once: node   9 more than 63 dups: the 64th
 *   10 row lists unequal, more than NETKAT_ROWS rows, or work list under NETKAT_WORK
 *   11 rows full: rows lent; answer[4] is d 12 trace list short: length needed
 *   13 out of range: 0 for the entering packet or the number turned, i for the i-th packet of a trace, the field of a value;
 *      of a value list with another length than there are fields, their number
 *   14 no token, or bad word: byte          15 over 64 open parentheses: byte  16 no legal text goes on so: byte
 *   17 too many nodes: nodes needed
 *   19 a negation with a change, a dup or a star anywhere below it: the negation's node
 *   20 a name that is malformed, repeats an earlier one of its table, or is drop, id or dup: the table's side, the name's index there
 *   21 a name with another size in the right table: side 1, its index in the left table
 * Causes are tested in this order, each over the whole input before the next:
 *   4 with side 0 on the tables, 20 on the left table and then on the right, on all names however many, 21, 1, 2;
 *   on texts 14 to 17, all of them on the left text and then all of them on the right;
 *   4, 5, 6, 7, 8, 19, 9, each on the left policy and then on the right; 3; 10; then 11, 12 or 13.
 * So 4 with side 0 may come before all else. A refusal leaves every list but `answer` as it was, but for what 11 and 12 leave in
 * the row lists and that the work list is all 0 whenever 10 has passed.
 *
 * Stack. A call needs up to NETKAT_STACK bytes of stack, 4 MiB. Measured on policies as deep as they may be, in KiB:
 *   netkat_values 5, netkat_number 5, netkat_policy 5, netkat_policies 5, netkat_read 29,
 *   netkat_search 852, netkat_search_texts 883, netkat_evidence 845, netkat_evidence_rows 1997,
 *   netkat_trace 416
 * A thread with too little meets its guard page, and the process ends.
 *
 * Time. Small calls take microseconds, searches and checks of evidence mostly milliseconds. On the costliest policies a row may take
 * some milliseconds, and a call with 65,535 rows minutes. A call can't be cancelled: where that matters, lend fewer rows, or
 * make the call in a process of its own. Tables of n and m names are tested by 20 and 21 with at most n*n/2 + m*m/2 + n*m comparisons
 * of names, by netkat_evidence_rows with twice as many: nothing for tables that can pass, 3.8 s for 20,000 long names in each where it
 * was measured, and four times as long for twice as many. Calls share no state: any number may run at once. */
#ifndef NETKAT_H
#define NETKAT_H

#include <stddef.h>
#include <stdint.h>

#ifdef __cplusplus
extern "C" {
#endif

#define NETKAT_VERSION "0.7.0"
#define NETKAT_NUMBERS 8   /* numbers of an answer */
#define NETKAT_CELL 16     /* bytes of a name's cell */
#define NETKAT_NAME 15     /* most bytes of a name */
#define NETKAT_FIELDS 8    /* most fields of both tables together */
#define NETKAT_NODES 512   /* most nodes of a policy */
#define NETKAT_ROWS 65535  /* most rows of a table */
#define NETKAT_WORK 16384  /* least length of a work list */
#define NETKAT_STACK 4194304 /* stack, in bytes, that a call may need */
#define NETKAT_ROWS_FULL 11 /* the refusal that carries d */

enum {
    NETKAT_DONE = 0, /* equal, accepted */
    NETKAT_LEFT = 1,
    NETKAT_RIGHT = 2,
    NETKAT_BOTH = 3,
    NETKAT_NEITHER = 4,
    NETKAT_REJECTED = 5,
    NETKAT_REFUSED = 9
};

/* A row of a table, as a record. A state has bit 0 for the whole policy, bit i for what remains after dup i, the dups counted from 1. */
typedef struct {
    uint16_t packet;
    uint64_t left;   /* state of the left policy */
    uint64_t right;  /* state of the right policy */
    uint16_t parent; /* number of the row that listed it */
} netkat_row;

/* The values of a packet's fields from its number, which is one over the fields that the two policies mention; all other fields
 * show 0. `values` has as many entries as both tables together have fields. Answers 0 with the values written, or refuses by 1 to
 * 9, 13, 19 to 21, each of 4 to 9 and 19 on a policy with its side. */
void netkat_values(const uint8_t *left_names, size_t left_names_length,
                   const uint16_t *left_sizes, size_t left_sizes_length,
                   const uint8_t *right_names, size_t right_names_length,
                   const uint16_t *right_sizes, size_t right_sizes_length,
                   const uint8_t *left_kind, size_t left_kind_length,
                   const uint16_t *left_first, size_t left_first_length,
                   const uint16_t *left_second, size_t left_second_length,
                   const uint8_t *right_kind, size_t right_kind_length,
                   const uint16_t *right_first, size_t right_first_length,
                   const uint16_t *right_second, size_t right_second_length,
                   uint16_t number,
                   uint16_t *values, size_t values_length,
                   uint64_t *answer);

/* The number of the packet with these values over the fields that the two policies mention; values of other fields are tested and
 * not counted. Answers 0, packet; or refuses as netkat_values does. */
void netkat_number(const uint8_t *left_names, size_t left_names_length,
                   const uint16_t *left_sizes, size_t left_sizes_length,
                   const uint8_t *right_names, size_t right_names_length,
                   const uint16_t *right_sizes, size_t right_sizes_length,
                   const uint8_t *left_kind, size_t left_kind_length,
                   const uint16_t *left_first, size_t left_first_length,
                   const uint16_t *left_second, size_t left_second_length,
                   const uint8_t *right_kind, size_t right_kind_length,
                   const uint16_t *right_first, size_t right_first_length,
                   const uint16_t *right_second, size_t right_second_length,
                   const uint16_t *values, size_t values_length,
                   uint64_t *answer);

/* Are the lists a policy over the fields of the tables? N is of the fields that it mentions. Answers 0, number of dups; or refuses by
 * 20, 21 with a table's side, by 1 to 9, 19 with side 0. */
void netkat_policy(const uint8_t *left_names, size_t left_names_length,
                   const uint16_t *left_sizes, size_t left_sizes_length,
                   const uint8_t *right_names, size_t right_names_length,
                   const uint16_t *right_sizes, size_t right_sizes_length,
                   const uint8_t *kind, size_t kind_length,
                   const uint16_t *first, size_t first_length,
                   const uint16_t *second, size_t second_length,
                   uint64_t *answer);

/* Are the lists two policies over the fields of the tables? Answers 0, number of dups of the left, of the right; or
 * refuses by 1 to 9, 19 to 21, each of 4 to 9 and 19 on a policy with its side. */
void netkat_policies(const uint8_t *left_names, size_t left_names_length,
                     const uint16_t *left_sizes, size_t left_sizes_length,
                     const uint8_t *right_names, size_t right_names_length,
                     const uint16_t *right_sizes, size_t right_sizes_length,
                     const uint8_t *left_kind, size_t left_kind_length,
                     const uint16_t *left_first, size_t left_first_length,
                     const uint16_t *left_second, size_t left_second_length,
                     const uint8_t *right_kind, size_t right_kind_length,
                     const uint16_t *right_first, size_t right_first_length,
                     const uint16_t *right_second, size_t right_second_length,
                     uint64_t *answer);

/* Reads the text of the left policy or of the right one, as "sw=0;(dup+port<-2)*;!(sw=0;port=2)": `side` 2 is right, any
 * other number left. A word is a field exactly if the table of that side names it, whatever the other table has. Answers
 * 0, number of nodes, which stand first in the three lists; or refuses by 4 with side 0, 20, 21, 1, 2, then by 14 to 17
 * with side 0. 17 names the nodes needed; over NETKAT_NODES no lists suffice. What is negated is not tested here, nor
 * are values, nor 3. */
void netkat_read(const uint8_t *left_names, size_t left_names_length,
                 const uint16_t *left_sizes, size_t left_sizes_length,
                 const uint8_t *right_names, size_t right_names_length,
                 const uint16_t *right_sizes, size_t right_sizes_length,
                 uint8_t side,
                 const uint8_t *text, size_t text_length,
                 uint8_t *kind, size_t kind_length,
                 uint16_t *first, size_t first_length,
                 uint16_t *second, size_t second_length,
                 uint64_t *answer);

/* Have two policies the same traces from every packet? Answers
 *   0, rows                        equal: the row lists hold so many rows, a table that netkat_evidence accepts
 *   1 or 2, length, entering       the left or the right policy alone has a trace of this length from the entering
 *                                  packet, and no shorter trace tells the two apart; the trace stands first in the list
 *                                  `trace`; the entering packet is not part of it
 *   9, 11, 0, rows lent, d         more rows are needed than were lent, and it is not known whether the two are equal; but they
 *                                  have the same traces of d packets or fewer from every packet: nothing that passes with fewer than
 *                                  d packets recorded tells them apart. d is the depth of the row being handled, how many rows lie
 *                                  above it by their parents, and 0 if the starting rows did not fit. Where more rows run out again,
 *                                  d is no less
 * or refuses by 1 to 10, 12, 19 to 21. Once 10 has passed, the row lists (packet, left, right, parent) hold the rows listed so far, of 11 the
 * first rows that fit, and the work list is all 0. `parent` holds the number of the row that listed the row, counted from
 * 0; of a starting row its own number. */
void netkat_search(const uint8_t *left_names, size_t left_names_length,
                   const uint16_t *left_sizes, size_t left_sizes_length,
                   const uint8_t *right_names, size_t right_names_length,
                   const uint16_t *right_sizes, size_t right_sizes_length,
                   const uint8_t *left_kind, size_t left_kind_length,
                   const uint16_t *left_first, size_t left_first_length,
                   const uint16_t *left_second, size_t left_second_length,
                   const uint8_t *right_kind, size_t right_kind_length,
                   const uint16_t *right_first, size_t right_first_length,
                   const uint16_t *right_second, size_t right_second_length,
                   uint16_t *packet, size_t packet_length,
                   uint64_t *left, size_t left_length,
                   uint64_t *right, size_t right_length,
                   uint16_t *parent, size_t parent_length,
                   uint16_t *trace, size_t trace_length,
                   uint32_t *work, size_t work_length,
                   uint64_t *answer);

/* The same for two texts, each over the names of its own table, which are read before anything is searched: refuses by 4
 * with side 0, 20, 21, 1, 2, by 14 to 17 on the left text, then on the right, both with side 0, then by 4 to 9 and 19, 3, 10 to 12. */
void netkat_search_texts(const uint8_t *left_names, size_t left_names_length,
                         const uint16_t *left_sizes, size_t left_sizes_length,
                         const uint8_t *right_names, size_t right_names_length,
                         const uint16_t *right_sizes, size_t right_sizes_length,
                         const uint8_t *left_text, size_t left_text_length,
                         const uint8_t *right_text, size_t right_text_length,
                         uint16_t *packet, size_t packet_length,
                         uint64_t *left, size_t left_length,
                         uint64_t *right, size_t right_length,
                         uint16_t *parent, size_t parent_length,
                         uint16_t *trace, size_t trace_length,
                         uint32_t *work, size_t work_length,
                         uint64_t *answer);

/* Does a table of rows, whoever made it, show that two policies are equal? Answers
 *   0                              accepted: they have the same traces from every packet
 *   5, 1, row                      rejected by rule (a): a packet or a state of the row is out of range
 *   5, 2, packet                   (b): the starting row (packet, 1, 1) is missing
 *   5, 3, row                      (c): the outputs of the row differ
 *   5, 4, row, packet              (d): the row's next row at the packet is missing
 * or refuses by 1 to 10, 19 to 21. Once 10 has passed, the work list is all 0. */
void netkat_evidence(const uint8_t *left_names, size_t left_names_length,
                     const uint16_t *left_sizes, size_t left_sizes_length,
                     const uint8_t *right_names, size_t right_names_length,
                     const uint16_t *right_sizes, size_t right_sizes_length,
                     const uint8_t *left_kind, size_t left_kind_length,
                     const uint16_t *left_first, size_t left_first_length,
                     const uint16_t *left_second, size_t left_second_length,
                     const uint8_t *right_kind, size_t right_kind_length,
                     const uint16_t *right_first, size_t right_first_length,
                     const uint16_t *right_second, size_t right_second_length,
                     const uint16_t *packet, size_t packet_length,
                     const uint64_t *left, size_t left_length,
                     const uint64_t *right, size_t right_length,
                     uint32_t *work, size_t work_length,
                     uint64_t *answer);

/* The same for a table that is lent as one list of records, whose parents are not read: answer and work list are those of
 * netkat_evidence with the records' packets, left states and right states as its three lists. */
void netkat_evidence_rows(const uint8_t *left_names, size_t left_names_length,
                          const uint16_t *left_sizes, size_t left_sizes_length,
                          const uint8_t *right_names, size_t right_names_length,
                          const uint16_t *right_sizes, size_t right_sizes_length,
                          const uint8_t *left_kind, size_t left_kind_length,
                          const uint16_t *left_first, size_t left_first_length,
                          const uint16_t *left_second, size_t left_second_length,
                          const uint8_t *right_kind, size_t right_kind_length,
                          const uint16_t *right_first, size_t right_first_length,
                          const uint16_t *right_second, size_t right_second_length,
                          const netkat_row *rows, size_t rows_length,
                          uint32_t *work, size_t work_length,
                          uint64_t *answer);

/* Which of two policies has a trace from the entering packet? Answers 1 left, 2 right, 3 both, 4 neither; or refuses by 1 to 10,
 * 13, 19 to 21. A trace of length 0 is neither's. Once 10 has passed, the work list is all 0. */
void netkat_trace(const uint8_t *left_names, size_t left_names_length,
                  const uint16_t *left_sizes, size_t left_sizes_length,
                  const uint8_t *right_names, size_t right_names_length,
                  const uint16_t *right_sizes, size_t right_sizes_length,
                  const uint8_t *left_kind, size_t left_kind_length,
                  const uint16_t *left_first, size_t left_first_length,
                  const uint16_t *left_second, size_t left_second_length,
                  const uint8_t *right_kind, size_t right_kind_length,
                  const uint16_t *right_first, size_t right_first_length,
                  const uint16_t *right_second, size_t right_second_length,
                  uint16_t entering,
                  const uint16_t *trace, size_t trace_length,
                  uint32_t *work, size_t work_length,
                  uint64_t *answer);

#ifdef __cplusplus
}
#endif

#endif
