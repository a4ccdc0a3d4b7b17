/*
 * concoursel.h: the proved core of a laboratory bench controller, for C.
 *
 * THE RECORD
 *
 * A record holds a bench method and how far it has been carried out. It is a term in preorder: each node is
 * one byte of kind, then a body whose length the kind fixes, then its children.
 *
 *   kind  node         body                                             children
 *   0     nil          none                                             0
 *   1     prefix       3 bytes: action, key high byte, key low byte     1
 *   2     choice       none                                             2
 *   3     parallel     none                                             2
 *   4     restriction  1 byte: name                                     1
 *
 * A prefix is one step and what comes after it. A choice goes on with one of its two sides. A parallel has two
 * parts at work side by side. A restriction keeps a channel inside: a step on it needs both halves below.
 *
 *   action     0          tau: a step without a channel
 *              1 to 127   a channel's name
 *              128        no action; refused
 *              129 to 255 the co-names of 1 to 127. Two parts share a step by an action and its complement,
 *                         which is 128 more or less; tau has none
 *   key        0          not done
 *              1 to 65535 done. A shared step puts the same key at both of its places
 *   name       1 to 127   the channel that a restriction keeps inside
 *
 * Nodes are numbered from 0 in preorder; the root has depth 1. A place is the number of a prefix node.
 * Limits: at most 4096 nodes and depth at most 256, so a record has at most 16384 bytes.
 *
 * ANSWERS AND REFUSALS
 *
 *   no.  cause                                                                  given by
 *   0    none: the operation is done
 *   1    bytes are no record (also: length 0, or bytes after the whole term)    all
 *   2    over a limit: node 4097 or depth 257                                   all
 *   3    key is 0                                                               forward, undo, waiting, take_back
 *   4    p is no prefix node, or q is not 0 and is no prefix node or at most p  forward
 *   5    key stands in the record already                                       forward
 *   6    the rules derive no such step                                          forward
 *   7    key stands nowhere in the record                                       undo, waiting, take_back
 *   8    the rules derive no undo of this key                                   undo
 *   9    lent row shorter than the list                                         undo_listing, waiting, take_back
 *   13   record is not sound: its verdict is not 0                              take_back
 *
 * Reading goes from the left and the first offence decides between 1 and 2. Of the others the least number that
 * applies is given, with two exceptions: take_back gives 13 after 3 and before 7, and 9 comes only after all others.
 * With a refusal every other field of the answer is 0, and no byte of the record and no place of a row has changed.
 *
 * MEMORY AND THREADS
 *
 * Record and row belong to the caller. They are lent for the time of a call; no pointer is kept and nothing is
 * allocated. A pointer must be good for the length given with it; with length 0 any pointer will do, null too.
 * Record and row must not overlap.
 * Stack, on x86-64, at the deepest record: up to 4 KiB below read and node; 11 KiB below count, least_free and blank;
 * 51 KiB below forward, undo and waiting; 140 KiB below first, undo_listing and verdict; 240 KiB below take_back.
 * The library has no state of its own: any number of threads may call it at once, each on a record (and row) that
 * no other thread uses during the call.
 */
#ifndef CONCOURSEL_H
#define CONCOURSEL_H

#include <stddef.h>
#include <stdint.h>

#ifdef __cplusplus
extern "C" {
#endif

/* Refusal numbers. */
#define CONCOURSEL_DONE 0
#define CONCOURSEL_NO_RECORD 1
#define CONCOURSEL_OVER_LIMIT 2
#define CONCOURSEL_KEY_ZERO 3
#define CONCOURSEL_NO_PLACE 4
#define CONCOURSEL_KEY_STANDS 5
#define CONCOURSEL_NO_STEP 6
#define CONCOURSEL_KEY_ABSENT 7
#define CONCOURSEL_NO_UNDO 8
#define CONCOURSEL_ROW_SHORT 9
#define CONCOURSEL_NOT_SOUND 13

/*
 * The 32-bit answer of forward and undo: refusal * 256 + label. The label is the action seen from outside: that of
 * the one place, or 0 (tau) for a shared step.
 */
#define CONCOURSEL_STEP_REFUSAL(answer) ((uint8_t)((uint32_t)(answer) >> 8))
#define CONCOURSEL_STEP_LABEL(answer) ((uint8_t)(answer))

/*
 * The 64-bit answer of all other operations:
 * refusal * 2^48 + mark * 2^40 + label * 2^32 + p * 2^16 + q.
 * An operation that answers a single number has it in the low 16 bits. It is proved for every entry and every input
 * that what these macros take out of an answer is what the operation found: no field runs into another.
 */
#define CONCOURSEL_REFUSAL(answer) ((uint8_t)((uint64_t)(answer) >> 48))
#define CONCOURSEL_NUMBER(answer) ((uint16_t)(answer))
#define CONCOURSEL_FOUND(answer) ((uint8_t)((uint64_t)(answer) >> 40))
#define CONCOURSEL_LABEL(answer) ((uint8_t)((uint64_t)(answer) >> 32))
#define CONCOURSEL_P(answer) ((uint16_t)((uint64_t)(answer) >> 16))
#define CONCOURSEL_Q(answer) ((uint16_t)(answer))

/*
 * The answer of node has the same fields and the kind above them: kind * 2^56. Its label is the action of a prefix or
 * the name of a restriction, its p the key of a prefix, its q the depth. What a kind has not is 0.
 */
#define CONCOURSEL_KIND(answer) ((uint8_t)((uint64_t)(answer) >> 56))
#define CONCOURSEL_ACTION(answer) CONCOURSEL_LABEL(answer)
#define CONCOURSEL_NAME(answer) CONCOURSEL_LABEL(answer)
#define CONCOURSEL_KEY(answer) CONCOURSEL_P(answer)
#define CONCOURSEL_DEPTH(answer) CONCOURSEL_Q(answer)

/* Reads the record. Answers its number of nodes. Refusals: 1, 2. */
uint64_t concoursel_read(const uint8_t *record, size_t len);

/*
 * Shows node n of the record. There: CONCOURSEL_FOUND is 1, with the node's kind, the bytes of its body, and its depth.
 * Past the last node: all fields are 0, which is no refusal. To go through all nodes, begin at 0 and go on until none
 * is found. Each call reads the record and goes from the first node to n. Refusals: 1, 2.
 */
uint64_t concoursel_node(const uint8_t *record, size_t len, uint16_t n);

/*
 * Makes a forward step with a key that stands nowhere yet: at the place p alone if q is 0, else at p and q together,
 * p before q. The two key bytes of each place become the key; no other byte changes. Answers the label.
 * Refusals: 1, 2, 3, 4, 5, 6.
 */
uint32_t concoursel_forward(uint8_t *record, size_t len, uint16_t p, uint16_t q, uint16_t key);

/*
 * Takes back the step of this key. There is at most one way: every place that holds the key gets key 0, both halves of
 * a shared step or neither. Refused with 8 while a later step stands on one of them. Answers the label.
 * Refusals: 1, 2, 3, 7, 8.
 */
uint32_t concoursel_undo(uint8_t *record, size_t len, uint16_t key);

/*
 * The first forward step at or after (p, q), p compared first and then q, that the rules allow with the least free
 * key. Any two 16-bit numbers may be given. Found: CONCOURSEL_FOUND is 1, with places and label; a step at one place
 * has q = 0 and so comes before the pairs of the same p. None: all fields are 0, which is no refusal.
 * To go through all steps, begin at (0, 0) and go on at (p, q + 1). Refusals: 1, 2.
 */
uint64_t concoursel_first(const uint8_t *record, size_t len, uint16_t p, uint16_t q);

/* Answers the number of distinct keys: of different numbers other than 0 in key bytes. Refusals: 1, 2. */
uint64_t concoursel_count(const uint8_t *record, size_t len);

/* Answers the least key from 1 on that stands nowhere in the record; there always is one. Refusals: 1, 2. */
uint64_t concoursel_least_free(const uint8_t *record, size_t len);

/*
 * Writes the keys whose undo is allowed, ascending, to the front of the row and answers how many; what lies past them
 * stays as it was. A row of 4096 places is always long enough. Refusals: 1, 2, 9.
 */
uint64_t concoursel_undo_listing(const uint8_t *record, size_t len, uint16_t *row, size_t row_len);

/*
 * Writes the keys that the given key waits for, ascending, to the front of the row and answers how many; what lies past
 * them stays as it was. They are all the other keys that a chain leads to: one link goes from a key to the keys below
 * its prefixes, wherever those stand. A key is listed once, the given one never, also where a chain comes back to it.
 *
 *   1[1].2[2].0 | -2[2].3[3].0     an action with its key; -2 is the co-name of 2
 *
 * Key 1 waits for 2 and 3: 2 stands below 1, and 3 stands below the other half of 2. In a sound record these are the
 * keys that have to be taken back first, and the key's own undo is allowed exactly when there are none.
 * A row of 4096 places is always long enough. Refusals: 1, 2, 3, 7, 9.
 */
uint64_t concoursel_waiting(const uint8_t *record, size_t len, uint16_t key, uint16_t *row, size_t row_len);

/*
 * Takes back the given key with everything that stands on it, in one command: undoes it and exactly the keys of its
 * waiting list, and every other key keeps its places. The order is fixed: each time the least key still to go whose
 * undo is then allowed. Writes the keys in the order in which they went to the front of the row and answers how many;
 * what lies past them stays as it was. The record is then as concoursel_undo leaves it, called for these keys in this
 * order.
 *
 *   1[1].(2[2].3[3].0 | 4[4].0)     an action with its key
 *
 * Taking back key 1 takes back 3, 2, 4 and 1: of 3 and 4, which can go at once, 3 is the least; then 2 can go too.
 * Allowed for sound records only. The row needs a place for the given key too; one of 4096 places is always long
 * enough. Refusals, in this order: 1, 2, 3, 13, 7, 9.
 */
uint64_t concoursel_take_back(uint8_t *record, size_t len, uint16_t key, uint16_t *row, size_t row_len);

/* Blank form: every key becomes 0. Answers the number of distinct keys removed. Refusals: 1, 2. */
uint64_t concoursel_blank(uint8_t *record, size_t len);

/*
 * Soundness: could this record have come about by allowed steps from its blank form? Answers 0 if so, else the lowest
 * number that fails, which is no refusal:
 *   1  something below a prefix with key 0 holds a key
 *   2  both sides of a choice hold keys
 *   3  a key stands more than twice
 *   4  a key that stands twice marks actions that are not complementary
 *   5  a key that stands twice does not stand once on each side of some parallel
 *   6  under a restriction on a name, a key that marks it or its co-name does not stand twice below that restriction
 *   7  the keys stand above each other in a circle
 * Refusals: 1, 2.
 */
uint64_t concoursel_verdict(const uint8_t *record, size_t len);

#ifdef __cplusplus
}
#endif

#endif
