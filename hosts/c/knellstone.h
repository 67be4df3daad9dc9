/* Knellstone for hosts: a Remy trainer and sender, kept by the host as bytes.
 *
 * Every function is total on any bytes. It answers a size, or KNELLSTONE_REFUSED plus the number of a
 * refusal; a refused call changes no byte of what it was lent. A slice is a pointer and a length. The
 * buffers of one call must not overlap. Numbers are big-endian; a float is its 8 bytes of bits.
 *
 * Link crates/host/out/libhost.a, which `rt lib` in crates/host proves and writes. */
#ifndef KNELLSTONE_H
#define KNELLSTONE_H

#include <stddef.h>
#include <stdint.h>

#ifdef __cplusplus
extern "C" {
#endif

#define KNELLSTONE_REFUSED UINT64_C(0x8000000000000000)

/* Sizes in bytes. */
#define KNELLSTONE_SETTINGS 137      /* u32 rule_splits, rounds, multiplier; drill byte; five actions; upper ends */
#define KNELLSTONE_ACTION 20         /* multiplier 8, increment 4, delay 8 */
#define KNELLSTONE_POINT 24          /* ack, send, ratio */
#define KNELLSTONE_FOUND 21          /* 1 and an action, or zeros */
#define KNELLSTONE_TESTED 23         /* the same, then u16 the cubes tested */
#define KNELLSTONE_RANGES 48         /* ack, send and ratio, of each the lowest and the highest value */
#define KNELLSTONE_QUESTION 31       /* kind (1 counts, 2 score, 3 done), u16 leaf, action, progress */
#define KNELLSTONE_RECORD_FRESH 196  /* a record of no split; each split adds 170 */
#define KNELLSTONE_RECORD_MOST 11076 /* a record of 64 splits */
#define KNELLSTONE_MODE 9            /* 0 off, 1 always, 2 lo..=hi; u32 lo, u32 hi */
#define KNELLSTONE_SENDER 108        /* docs/HOSTS.md has its layout */
#define KNELLSTONE_GENERATOR 32      /* a generator: four u64 words */
#define KNELLSTONE_OUTPUT 8          /* a generator's output, u64 */
#define KNELLSTONE_EVENT 22          /* 0 ack, 1 send, 2 tick; sent 8, received 8; draw flag, u32 draw */
#define KNELLSTONE_REPLY 6           /* refusal's number or 0, u32 window, 1 where an ack's window was clipped */
#define KNELLSTONE_ACK 21            /* of a burst: sent 8, received 8; draw flag, u32 draw */
#define KNELLSTONE_LINE 11           /* the longest line of a trace's event */
#define KNELLSTONE_LINES_MOST 180191 /* the lines of 16,381 events */
#define KNELLSTONE_LIST_MOST 7       /* a split list: its length in one byte, then 2 bytes a node, at most three */
#define KNELLSTONE_NO_ROW 64         /* the answer where no row of the even tree holds the point */

/* The number of the refusal, or 0. */
static inline uint32_t knellstone_refusal(uint64_t answer) {
    return answer >= KNELLSTONE_REFUSED ? (uint32_t)(answer - KNELLSTONE_REFUSED) : 0;
}

/* Starts a trainer by its settings and writes its record. The upper ends of the root box, ack, send and ratio, are
 * floats from 1 to 1,000,000; its lower ends are 0. 2, 9 */
uint64_t knellstone_start(const uint8_t *settings, size_t settings_len, uint8_t *record, size_t record_len);

/* What the trainer of a record asks. 6, 7, 8, 9 */
uint64_t knellstone_question(const uint8_t *record, size_t record_len, uint8_t *out, size_t out_len);

/* Answers with counts, 8 bytes each, one per node, and writes the next record. 6, 7, 8, 21, 4, 20, 9 */
uint64_t knellstone_answer_counts(const uint8_t *record, size_t record_len, const uint8_t *counts, size_t counts_len,
                                  uint8_t *next, size_t next_len);

/* Answers with a score, by its bits, and writes the next record. 6, 7, 8, 21, 9 */
uint64_t knellstone_answer_score(const uint8_t *record, size_t record_len, uint64_t score_bits, uint8_t *next,
                                 size_t next_len);

/* Answers in turn, in one call, and writes the record after the last. The list is of groups: 1 and counts or 2 and
 * scores, how many of them in 2 bytes, then 8 bytes each. All are taken, or the call is refused for the first that is
 * not. With an empty list the record is written again: one of version 1 or 2 as version 3, with the ends 600, 600 and
 * 1000. 6, 7, 8, then 6 for a group that is cut or of another kind, 21, 4, 20, then 9 */
uint64_t knellstone_answers(const uint8_t *record, size_t record_len, const uint8_t *list, size_t list_len,
                            uint8_t *next, size_t next_len);

/* The actions whose scores the trainer asks for in a row, whatever those scores are: KNELLSTONE_ACTION bytes each, at
 * most 4,097. 6, 7, 8, 9 */
uint64_t knellstone_asked(const uint8_t *record, size_t record_len, uint8_t *out, size_t out_len);

/* All candidates of an action, in the order in which they are asked for: KNELLSTONE_ACTION bytes each, at most 4,096.
 * 2, 6, 1, 9 */
uint64_t knellstone_candidates(const uint8_t *settings, size_t settings_len, const uint8_t *action, size_t action_len,
                               uint8_t *out, size_t out_len);

/* 1 where the trees of two records are equal, else 0. 6, 7, 8 of the first, then of the second */
uint64_t knellstone_equal(const uint8_t *a, size_t a_len, const uint8_t *b, size_t b_len);

/* Takes the newest split of the record's tree back, and writes the record of the trainer that is left: the split's
 * parent is a leaf again, with the action and mark that it had. 6, 7, 8, 24 where no split was made, 3 where the leaf
 * whose score is asked for is one of those that go, 9 */
uint64_t knellstone_undo_split(const uint8_t *record, size_t record_len, uint8_t *next, size_t next_len);

/* Gives the record's trainer new settings with the same upper ends, and writes the record of the trainer that is left:
 * its tree, stage and round stay; where a score is asked for, the candidates are dropped and the leaf's own action is
 * asked for again. 6, 7, 8, 2, 27 where an upper end differs, the stage is above the new rule_splits, only counts are
 * left to give or training is done, or the round is not below the new rounds while leaves are tuned, 9 */
uint64_t knellstone_change_settings(const uint8_t *record, size_t record_len, const uint8_t *settings,
                                    size_t settings_len, uint8_t *next, size_t next_len);

/* Looks many points up in the record's tree: KNELLSTONE_FOUND bytes each. 6, 7, 8, 6, 9 */
uint64_t knellstone_lookup(const uint8_t *record, size_t record_len, const uint8_t *points, size_t points_len,
                           uint8_t *out, size_t out_len);

/* The same with one leaf's action replaced. 6, 7, 8, 3, 6, 1, 6, 9 */
uint64_t knellstone_lookup_replaced(const uint8_t *record, size_t record_len, uint16_t leaf, const uint8_t *action,
                                    size_t action_len, const uint8_t *points, size_t points_len, uint8_t *out,
                                    size_t out_len);

/* Looks many points up, with the number of cubes that each lookup tested: KNELLSTONE_TESTED bytes each. The root is one, then
 * at each split the children in order up to the one that holds the point; a point outside the root box counts 1. 6, 7, 8,
 * 6, 9 */
uint64_t knellstone_lookup_tested(const uint8_t *record, size_t record_len, const uint8_t *points, size_t points_len,
                                  uint8_t *out, size_t out_len);

/* The leaves of the record's tree that some point within the ranges could reach, both ends counted: 2 bytes each, by rising
 * node. 6, 7, 8, 6 where the ranges have not 48 bytes, 28 where an end is NaN or a lowest is above its highest, 29 where
 * out has fewer than 2 bytes for each leaf found; no record needs more than 1,026 */
uint64_t knellstone_ranges(const uint8_t *record, size_t record_len, const uint8_t *ranges, size_t ranges_len, uint8_t *out,
                           size_t out_len);

/* A fresh sender by its repeat mode. 2, 9 */
uint64_t knellstone_sender(const uint8_t *mode, size_t mode_len, uint8_t *sender, size_t sender_len);

/* Acks, sends and ticks in turn over the record's tree: KNELLSTONE_REPLY bytes each, and the sender after
 * them. An event that is refused changes nothing and has its number in its reply. 6, 7, 8, 6, 9 */
uint64_t knellstone_events(const uint8_t *record, size_t record_len, uint8_t *sender, size_t sender_len,
                           const uint8_t *events, size_t events_len, uint8_t *replies, size_t replies_len);

/* The same with the draws of a generator in place of those that are handed in, whose bytes are not looked at: it steps once at
 * each ack that is taken and has a draw due. The sender and the generator after them. 6, 7, 8, 6 for another length of the
 * sender, of the generator or of the events, 26 for a generator of four zeros, 9 */
uint64_t knellstone_own_events(const uint8_t *record, size_t record_len, uint8_t *sender, size_t sender_len,
                               uint8_t *generator, size_t generator_len, const uint8_t *events, size_t events_len,
                               uint8_t *replies, size_t replies_len);

/* The output of a generator, xoshiro256++, KNELLSTONE_OUTPUT bytes, and its state after the step. 6, 26, 9 */
uint64_t knellstone_step(uint8_t *generator, size_t generator_len, uint8_t *out, size_t out_len);

/* The generator's state before the step; its size. 6, 26 */
uint64_t knellstone_step_back(uint8_t *generator, size_t generator_len);

/* A burst: at most 256 acks of KNELLSTONE_ACK bytes, given one by one up to the first that is refused. Of each that is
 * taken the window is written in 4 bytes and, in one byte, 1 where it was clipped, else 0; the places after them keep
 * what they held, and the sender is the one after them. windows_len counts bytes, 4 an ack, and clipped_len one an ack.
 * The low 32 bits of the answer are how many were taken, those above the number of the refusal that stopped it, 1, 22 or
 * 5, or 0: to stop is its answer and no refusal. 6, 7, 8, 6 for a sender of another length or an ack that is cut, 9 for
 * more than 256 acks or fewer places than acks */
uint64_t knellstone_burst(const uint8_t *record, size_t record_len, uint8_t *sender, size_t sender_len,
                          const uint8_t *acks, size_t acks_len, uint8_t *windows, size_t windows_len, uint8_t *clipped,
                          size_t clipped_len);

/* How many acks a burst that was not refused took. */
static inline uint32_t knellstone_taken(uint64_t answer) {
    return (uint32_t)answer;
}

/* The number of the refusal that stopped a burst that was not refused, or 0 where all were taken. */
static inline uint32_t knellstone_stopped(uint64_t answer) {
    return (uint32_t)(answer >> 32);
}

/* The panel's lines of a record followed by its counts, 8 bytes each; the shares add up to 1000. 6, 7, 8, 4, 9 */
uint64_t knellstone_panel(const uint8_t *input, size_t input_len, uint8_t *out, size_t out_len);

/* The lines of a record followed by a trace (docs/HOSTS.md has its bytes): for each event, on a fresh sender with repeat off,
 * the window, ending in " c" where an ack's window was clipped, or "refused N", and it goes on. A line has at most
 * KNELLSTONE_LINE bytes, its end counted, and no trace makes more than KNELLSTONE_LINES_MOST. 6, 7, 8 of the record, 25 for a
 * trace that is not whole, 9 for a buffer with fewer than KNELLSTONE_LINE bytes an event */
uint64_t knellstone_trace(const uint8_t *input, size_t input_len, uint8_t *out, size_t out_len);

/* The split list after another among those of at most n splits, n at most 3: shorter first, then by their nodes. It is
 * read and written alike; the empty list, one byte 0, is the first. 0 where the list was the last. 6 where the bytes are
 * not those that the length says, 30, 9 */
uint64_t knellstone_next_list(uint32_t n, const uint8_t *list, size_t list_len, uint8_t *next, size_t next_len);

/* The row of the even tree that holds a point, 0 to 63, or KNELLSTONE_NO_ROW. 6 where the point has not 24 bytes */
uint64_t knellstone_even_row(const uint8_t *point, size_t point_len);

#ifdef __cplusplus
}
#endif

#endif
