/*
 * Svelgandur's calls from C. Link the static library libsvelgandur.a beside the
 * program; of other libraries it needs the C library's memset, memcpy and
 * memmove at most.
 *
 * What a caller hands over
 *   A pointer and a length: that many bytes (or 16-bit, 32-bit or 64-bit
 *   numbers, each aligned as C aligns them), all of them readable, and writable
 *   where the pointer is not to const. The pointer must not be NULL, also where
 *   the length is 0: pass the address of anything that the caller owns, and
 *   nothing is read or written there.
 *   Numbers may have any value: what is out of range is refused, and no value
 *   is undefined. Items, names, roles, p, q, k and counts are 64 bits wide, so
 *   that no bad number wraps into a good one on its way.
 *   Memory that a call writes must not overlap other memory lent to the same
 *   call, and no other thread may use it until the call returns. What it holds
 *   before does not matter, unless the call says so.
 *
 * What a call answers
 *   Every call writes all four numbers of `answer`: first the kind, then three
 *   numbers that go with it.
 *
 *     kind   SVELGANDUR_REFUSED (0): side, number, place.
 *              side: SVELGANDUR_REGISTER, _REQUIREMENT or _CALL.
 *              number: the document's refusal number, see below.
 *              place: the byte place, counted from that side's first byte; 0 on
 *              the side of the call.
 *            SVELGANDUR_GOOD (1): what each call says below.
 *            SVELGANDUR_NO (2): svelgandur_member alone.
 *
 *   After a refusal all other lent memory is as it was.
 *
 * Withdrawn items
 *   Name 63 (SVELGANDUR_WITHDRAWN) on an item means that it is withdrawn. The
 *   graph that is judged is the register without its withdrawn items and without
 *   the links from them and to them; all other items keep their numbers. Degree,
 *   margin, yes or no, their maps and the whole list are taken over that graph,
 *   a threshold's degrees too. Reading and the calls of a session know nothing of
 *   it: there name 63 is a name like any other, and a withdrawn item has its
 *   names and its links as before. A requirement may name 63; it counts as a
 *   name, and no item that is judged holds it.
 *
 * The refusal numbers
 *    1  under 3 bytes, or a field or inner concept runs past its end
 *    2  version is not 1
 *    3  length unequal to the bytes that follow; in a session, more than them
 *    4  item or link count outside its range
 *    5  link end names no item
 *    6  link not above the one before
 *    7  role above 31
 *    8  bytes left over
 *    9  depth above 16
 *   10  more than 64 nodes
 *   11  threshold inside an inner concept, or in a requirement that must be
 *       plain
 *   12  a 17th threshold
 *   13  comparison is none of 0 to 3
 *   14  reduced size above 60
 *   15  asked item or name not in range (a link's ends are items)
 *   16  map buffer shorter than the written nodes; for the whole list, table
 *       shorter than the written nodes times the items
 *   17  step count above the log's length or 64; on undo, a last step out of
 *       range
 *   18  log full: the count equals its length or 64
 *   19  undo with count 0
 *   20  link not there is to be added, and 4,096 stand or the buffer has under
 *       5 bytes left
 *   21  output shorter than the message
 *   22  a list is empty, its depths form no tree, or a threshold's node is not in
 *       the list or below the one before
 *   23  q is 0 or above 1,000 (place of q)
 *   24  p is above q (place of p)
 *   25  p and q share a factor above 1 (place of p)
 *   26  asked item is withdrawn
 *   Where several hold, the one that the call comes to first is given: it reads
 *   the register, then the requirement, each from left to right (but within a
 *   threshold q before p: 13, 23, 24, 25), and then tests its own numbers in
 *   the order in which the call lists them below.
 *
 * No call keeps anything after it returns, takes memory of its own other than
 * the stack (64 KiB of it at most; the calls of a session 2 KiB), or writes to
 * memory that it was not lent, so calls on different memory may run at the same
 * time.
 */
#ifndef SVELGANDUR_H
#define SVELGANDUR_H

#include <stddef.h>
#include <stdint.h>

#ifdef __cplusplus
extern "C" {
#endif

/* answer[0] */
#define SVELGANDUR_REFUSED 0
#define SVELGANDUR_GOOD 1
#define SVELGANDUR_NO 2

/* answer[1] of a refusal */
#define SVELGANDUR_REGISTER 0
#define SVELGANDUR_REQUIREMENT 1
#define SVELGANDUR_CALL 2

/* The name of a withdrawn item. */
#define SVELGANDUR_WITHDRAWN 63

/* In the map of a degree, in place of an item. */
#define SVELGANDUR_DROPPED 65534
#define SVELGANDUR_UNMAPPED 65535

/* ---- reading ---- */

/*
 * Reads a register image.
 *   image     the bytes. Where session is 0 the image is all of them; otherwise
 *             it is what they begin with, as in a session's buffer: the first
 *             3 + length bytes.
 *   session   0, or any other number.
 *   answer    good: 1, how many items, how many links, 0.
 *             refused, on the register's side: 1 to 8.
 * The image is only read.
 */
void svelgandur_read_register(const uint8_t *image, size_t image_length,
                              uint64_t session, uint64_t answer[4]);

/*
 * Reads a requirement message.
 *   message   the bytes, all of them.
 *   answer    good: 1, how many nodes are written, how many thresholds, 0.
 *             refused, on the requirement's side: 1 to 3, 7 to 14, 23 to 25.
 * The message is only read.
 */
void svelgandur_read_requirement(const uint8_t *message, size_t message_length,
                                 uint64_t answer[4]);

/*
 * Says where the bytes of the k-th inner concept stand in a message, k from 0
 * in reading order: they are that part of the message itself.
 *   answer    good: 1, the place of its first byte, its length, 0; the place
 *             and the length lie within the message, and the length is at
 *             least 10.
 *             refused, where the message is bad or has no k-th: 0, 0, 0, 0.
 *             This call alone gives no number.
 * The message is only read.
 */
void svelgandur_inner_part(const uint8_t *message, size_t message_length,
                           uint64_t k, uint64_t answer[4]);

/* ---- writing ---- */

/* A node and a threshold as svelgandur_write_requirement takes them. */
struct svelgandur_node {
    uint64_t names; /* bit i is name i */
    uint64_t depth; /* 0 at the root */
    uint64_t role;  /* of the edge from its parent; not looked at in a root */
};

struct svelgandur_threshold {
    uint64_t node;       /* the number of its node, from 0 */
    uint64_t comparison; /* 0 is <, 1 is <=, 2 is >, 3 is >= */
    uint64_t p;
    uint64_t q;
    uint64_t inner_nodes; /* how many nodes its inner concept has */
};

/*
 * Writes the message of a requirement that is handed over as lists.
 *   nodes     its nodes in reading order (a node, then its children, each with
 *             all that is below it): three numbers each, as in
 *             struct svelgandur_node. nodes_length is how many numbers.
 *   thresholds   five numbers each, as in struct svelgandur_threshold, in the
 *             order of their nodes.
 *   inner     the nodes of all inner concepts, one after the other in the order
 *             of the thresholds: three numbers each.
 *   message   where it is written, from the first byte on; message_length is how
 *             many bytes fit. 12,066 are enough for every requirement.
 *   answer    good: 1, how many bytes were written, 0, 0.
 *             refused, on the call's side: 22; what reading the message would
 *             refuse first, each node with its thresholds before its children: 7,
 *             9, 10, 12, 13, 23, 24, 25, 14; 21.
 *             22 also where a length does not go into whole nodes or thresholds,
 *             or the thresholds have more or fewer inner nodes than there are.
 * After a good answer svelgandur_read_requirement takes the bytes written, and
 * the bytes behind them keep their contents. The lists are only read.
 * An array of n structs is handed over as (const uint64_t *)nodes, 3 * n, and of
 * thresholds as (const uint64_t *)thresholds, 5 * n.
 */
void svelgandur_write_requirement(const uint64_t *nodes, size_t nodes_length,
                                  const uint64_t *thresholds,
                                  size_t thresholds_length,
                                  const uint64_t *inner, size_t inner_length,
                                  uint8_t *message, size_t message_length,
                                  uint64_t answer[4]);

/* ---- one question: a register, a requirement, an item ---- */

/*
 * The degree of an item in a plain requirement, and the map that shows it.
 *   image     a register image, all of the bytes. In a session: the first
 *             3 + length bytes of the buffer.
 *   message   a requirement message without thresholds.
 *   item      from 0.
 *   map       one number for each written node in reading order; map_length is
 *             how many numbers fit. 64 are enough for every requirement.
 *   answer    good: 1, numerator, denominator (in lowest terms), how many places
 *             of the map were written: as many as nodes are written.
 *             refused, on the register's side: 1 to 8; on the requirement's
 *             side: 1 to 3, 7 to 14, 23 to 25; on the call's side: 15, 26, 16.
 * After a good answer each written place of the map holds the item that the node
 * goes to, or SVELGANDUR_DROPPED for a dropped node and all below it, or else
 * SVELGANDUR_UNMAPPED where the node goes nowhere. No node goes to a withdrawn
 * item. The places behind keep their contents. Image and message are only read.
 */
void svelgandur_degree(const uint8_t *image, size_t image_length,
                       const uint8_t *message, size_t message_length,
                       uint64_t item, uint16_t *map, size_t map_length,
                       uint64_t answer[4]);

/*
 * The margin of that degree N/D against p/q: N q - p D over D q.
 *   image, message, item   as for the degree.
 *   p, q      q from 1 to 1,000, p at most q, no common factor above 1.
 *   answer    good: 1, the margin without its sign, what it stands over, and
 *             1 where it is below zero, 0 where it is not. The fraction is not
 *             brought to lowest terms. The margin is at most 3,486,784,401,000
 *             either way.
 *             refused, on the register's side: 1 to 8; on the requirement's
 *             side: 1 to 3, 7 to 14, 23 to 25; on the call's side: 15, 26, 23,
 *             24, 25.
 * Image and message are only read.
 */
void svelgandur_margin(const uint8_t *image, size_t image_length,
                       const uint8_t *message, size_t message_length,
                       uint64_t item, uint64_t p, uint64_t q,
                       uint64_t answer[4]);

/*
 * Whether an item meets a requirement, with or without thresholds, and the map
 * that shows a yes.
 *   image, item, map       as for the degree.
 *   message   a requirement message.
 *   answer    yes: SVELGANDUR_GOOD (1), how many places of the map were written
 *             (as many as nodes are written), 0, 0.
 *             no: SVELGANDUR_NO (2), 0, 0, 0.
 *             refused, on the register's side: 1 to 8; on the requirement's
 *             side: 1 to 3, 7 to 14, 23 to 25; on the call's side: 15, 26, 16.
 *             (16 comes before the yes or no is known. 11 and 14 are for inner
 *             concepts only: the outer tree may have any size.)
 * After a yes each written place of the map holds the item that the node goes
 * to, and the places behind keep their contents. A no writes nothing to the map.
 * Image and message are only read.
 */
void svelgandur_member(const uint8_t *image, size_t image_length,
                       const uint8_t *message, size_t message_length,
                       uint64_t item, uint16_t *map, size_t map_length,
                       uint64_t answer[4]);

/* ---- the whole list: a register, a requirement, all items ---- */

/*
 * The degrees of all items in a plain requirement: each node's degree at each
 * item is worked out once, and not again for each path that reaches it.
 *   image, message         as for the degree.
 *   table     one number for each written node at each item, node by node in
 *             reading order: that of node n at item i stands at
 *             table[n * items + i], both from 0. table_length is how many
 *             numbers fit; 32,768 are enough for every register and
 *             requirement, and written nodes times items for one of them.
 *   answer    good: 1, how many items, how many nodes are written, the scale of
 *             the root.
 *             refused, on the register's side: 1 to 8; on the requirement's
 *             side: 1 to 3, 7 to 14, 23 to 25; on the call's side: 16.
 * After a good answer the degree of item i is table[i] over the scale. As
 * svelgandur_degree answers it, it is that fraction in lowest terms; over one
 * scale degrees compare as their numbers do.
 * A withdrawn item has no degree: its number is 0 at every node, also at one
 * without names and children. Whether an item is withdrawn stands in the image
 * and not in the table.
 * A kept node's number is its degree at the item, were it a requirement of its
 * own, over its own scale: the product, over the node and all kept nodes below
 * it, of names plus kept children, with 1 where there are none. No scale is above
 * 3,486,784,401. The numbers of a dropped node and of all below it are 0, too.
 * The places behind written nodes times items keep their contents, and what the
 * table held before has no bearing on any answer. Image and message are only
 * read.
 */
void svelgandur_list(const uint8_t *image, size_t image_length,
                     const uint8_t *message, size_t message_length,
                     uint32_t *table, size_t table_length, uint64_t answer[4]);

/*
 * ---- a session of trial edits ----
 *
 * buffer    holds a register image in its first 3 + length bytes; what lies
 *           behind them is room for links, 5 bytes each. A buffer of 24,583
 *           bytes is enough for every register.
 * log       one number for each step: every accepted edit writes one, at the
 *           count. At most the first 64 are ever used, and those at and behind
 *           the count have no bearing on any answer.
 * count     how many steps are in use. The caller holds it between calls: it is
 *           0 after opening, and afterwards what the last good answer said.
 *
 * A degree, a margin, a yes or no or a list in a session is asked of the first
 * 3 + length bytes of the buffer. An edit that adds name 63 to an item withdraws
 * it, one that takes the name away brings it back, and so does an undo of either;
 * no call of a session is refused because an item is withdrawn.
 *
 * A step as a number, lowest first:
 *   bit 0         1 where the fact was there before the edit, else 0
 *   bit 1         0 for a name on an item, 1 for a link
 *   a name        bits 2 to 17: the item; bits 18 to 63: the name
 *   a link        bits 2 to 17: to; bits 18 to 25: role; bits 26 to 63: from
 * So every number is the number of one step, and every step has one number. A
 * caller may hand over a log with any numbers in it: the undo of a step whose
 * item, name, role or ends are out of range for the register is refused with
 * 17, and any other is a step like one that an edit wrote.
 */

/*
 * Opens a session on the image that the buffer begins with.
 *   answer    good: 1, 0 (the count), 0, 0.
 *             refused, on the register's side: 1 to 8.
 * After a good answer all bytes behind the image are 0; the image is as it was.
 */
void svelgandur_open(uint8_t *buffer, size_t buffer_length,
                     uint64_t answer[4]);

/*
 * Adds a name to an item or takes it away.
 *   adds      0 takes it away; any other number adds it.
 *   item      from 0.
 *   name      0 to 63.
 *   answer    good: 1, the new count (the old one and 1), 0, 0.
 *             refused, on the register's side: 1 to 8; on the call's side: 17,
 *             15, 18.
 * After a good answer the name's bit in the image is set or cleared and
 * log[count] holds the step, also where the edit changed nothing; all other
 * bytes of the buffer and numbers of the log are as they were.
 */
void svelgandur_edit_name(uint8_t *buffer, size_t buffer_length,
                          uint64_t *log, size_t log_length, uint64_t count,
                          uint64_t adds, uint64_t item, uint64_t name,
                          uint64_t answer[4]);

/*
 * Adds a link or takes it away.
 *   adds      0 takes it away; any other number adds it.
 *   from, to  items from 0.
 *   role      0 to 31.
 *   answer    good: 1, the new count (the old one and 1), 0, 0.
 *             refused, on the register's side: 1 to 8; on the call's side: 17,
 *             15, 7, 18, 20.
 * After a good answer the buffer begins with the image of the register with or
 * without the link: a link that is added moves the links behind it up by 5 bytes
 * and so uses up the 5 bytes behind the image, one that is taken away moves them
 * down and leaves five bytes of 0 behind the new image. log[count] holds the
 * step, also where the edit changed nothing; all other bytes behind the image
 * and numbers of the log are as they were.
 */
void svelgandur_edit_link(uint8_t *buffer, size_t buffer_length,
                          uint64_t *log, size_t log_length, uint64_t count,
                          uint64_t adds, uint64_t from, uint64_t role,
                          uint64_t to, uint64_t answer[4]);

/*
 * Takes the last step back: sets its fact to what it was.
 *   answer    good: 1, the new count (the old one less 1), 0, 0.
 *             refused, on the register's side: 1 to 8; on the call's side: 17
 *             (the count), 19, 17 (the step), 20.
 * After a good answer the buffer has changed as by an edit that adds the fact,
 * if it was there before the step, or takes it away. The log is only read.
 */
void svelgandur_undo(uint8_t *buffer, size_t buffer_length,
                     const uint64_t *log, size_t log_length, uint64_t count,
                     uint64_t answer[4]);

/*
 * Keeps all edits: none of them can be taken back any more.
 *   answer    good: 1, 0 (the count), 0, 0.
 *             refused, on the register's side: 1 to 8; on the call's side: 17.
 * Buffer and log are only read.
 */
void svelgandur_keep(const uint8_t *buffer, size_t buffer_length,
                     const uint64_t *log, size_t log_length, uint64_t count,
                     uint64_t answer[4]);

#ifdef __cplusplus
}
#endif

#endif
