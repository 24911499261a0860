/*
 * The C boundary as a C program meets it: every call of include/svelgandur.h
 * over random inputs, good ones and damaged ones, in memory that is lent to the
 * byte. It knows no right degree: that is what tests/compare is for. It holds
 * each call to what the header says of any answer: its kind, side, number and
 * place, and what is left in the lent memory.
 *
 *   boundary SEED ROUNDS
 *
 * Compiled with -DFENCED the memory stands between pages that cannot be
 * touched, and what is lent for reading cannot be written. Otherwise it comes
 * from malloc, so that a sanitizer or valgrind can watch it.
 */
#include <inttypes.h>
#include <stdio.h>
#include <stdlib.h>
#include <string.h>
#ifdef FENCED
#include <sys/mman.h>
#endif

#include "svelgandur.h"

#define MOST_BYTES 70000

static void require(int holds, const char *what) {
    if (!holds) {
        fprintf(stderr, "boundary: %s\n", what);
        abort();
    }
}

/* ---- random numbers (splitmix64) ---- */

static uint64_t state;

static uint64_t word(void) {
    uint64_t mixed = state += UINT64_C(0x9E3779B97F4A7C15);
    mixed = (mixed ^ (mixed >> 30)) * UINT64_C(0xBF58476D1CE4E5B9);
    mixed = (mixed ^ (mixed >> 27)) * UINT64_C(0x94D049BB133111EB);
    return mixed ^ (mixed >> 31);
}

/* Below n, which is not 0. */
static uint64_t below(uint64_t n) {
    return word() % n;
}

/* A number handed to a call: mostly below n, and sometimes anything. */
static uint64_t number(uint64_t n) {
    static const uint64_t bounds[] = {0,     31,    32,    63,
                                      64,    511,   512,   1000,
                                      65535, 65536, 1ull << 32, UINT64_MAX};
    switch (below(16)) {
    case 0:
        return n;
    case 1:
        return bounds[below(sizeof bounds / sizeof *bounds)];
    case 2:
        return word();
    default:
        return below(n);
    }
}

/* ---- lent memory ---- */

struct lent {
    unsigned char *at; /* what the call is handed */
    size_t bytes;
    unsigned char *before; /* what it held then */
    unsigned char *whole;  /* what is given back */
    size_t whole_bytes;
};

#ifdef FENCED

enum { PAGE = 4096 };

static struct lent lend(const void *data, size_t bytes, int for_reading) {
    struct lent lent;
    size_t room = (bytes + PAGE - 1) / PAGE * PAGE;
    lent.bytes = bytes;
    lent.whole_bytes = room + 2 * PAGE;
    lent.whole = mmap(NULL, lent.whole_bytes, PROT_NONE,
                      MAP_PRIVATE | MAP_ANONYMOUS, -1, 0);
    require(lent.whole != MAP_FAILED, "no pages");
    /* At one end of its pages or at the other. */
    lent.at = lent.whole + PAGE + (below(4) ? room - bytes : 0);
    if (room) {
        require(!mprotect(lent.whole + PAGE, room, PROT_READ | PROT_WRITE),
                "no pages");
        memcpy(lent.at, data, bytes);
        require(!mprotect(lent.whole + PAGE, room,
                          for_reading ? PROT_READ : PROT_READ | PROT_WRITE),
                "no pages");
    }
    lent.before = malloc(bytes + 1);
    memcpy(lent.before, data, bytes);
    return lent;
}

static void take_back(struct lent lent) {
    munmap(lent.whole, lent.whole_bytes);
    free(lent.before);
}

#else

static struct lent lend(const void *data, size_t bytes, int for_reading) {
    struct lent lent;
    (void)for_reading;
    lent.bytes = bytes;
    lent.whole_bytes = bytes;
    lent.whole = lent.at = malloc(bytes ? bytes : 1);
    lent.before = malloc(bytes + 1);
    require(lent.at && lent.before, "no memory");
    memcpy(lent.at, data, bytes);
    memcpy(lent.before, data, bytes);
    return lent;
}

static void take_back(struct lent lent) {
    free(lent.whole);
    free(lent.before);
}

#endif

static int as_it_was(struct lent lent) {
    return memcmp(lent.at, lent.before, lent.bytes) == 0;
}

/* ---- answers ---- */

/* Which refusals a call can give: bit n of a side's set is number n. */
struct call {
    const char *name;
    uint32_t sides[3];
    uint64_t good, no, refused;
};

#define N(number) (UINT32_C(1) << (number))
#define REGISTER (N(1) | N(2) | N(3) | N(4) | N(5) | N(6) | N(7) | N(8))
#define FRACTION (N(23) | N(24) | N(25))
#define REQUIREMENT                                                            \
    (N(1) | N(2) | N(3) | N(7) | N(8) | N(9) | N(10) | N(11) | N(12) | N(13) | \
     N(14) | FRACTION)

enum {
    READ_REGISTER,
    READ_REQUIREMENT,
    INNER_PART,
    WRITE_REQUIREMENT,
    DEGREE,
    MARGIN,
    MEMBER,
    LIST,
    OPEN,
    EDIT_NAME,
    EDIT_LINK,
    UNDO,
    KEEP,
    CALLS
};

static struct call calls[CALLS] = {
    {"read_register", {REGISTER, 0, 0}, 0, 0, 0},
    {"read_requirement", {0, REQUIREMENT, 0}, 0, 0, 0},
    {"inner_part", {N(0), 0, 0}, 0, 0, 0},
    {"write_requirement",
     {0, 0,
      N(7) | N(9) | N(10) | N(12) | N(13) | FRACTION | N(14) | N(21) | N(22)},
     0,
     0,
     0},
    {"degree", {REGISTER, REQUIREMENT, N(15) | N(26) | N(16)}, 0, 0, 0},
    {"margin", {REGISTER, REQUIREMENT, N(15) | N(26) | FRACTION}, 0, 0, 0},
    {"member", {REGISTER, REQUIREMENT, N(15) | N(26) | N(16)}, 0, 0, 0},
    {"list", {REGISTER, REQUIREMENT, N(16)}, 0, 0, 0},
    {"open", {REGISTER, 0, 0}, 0, 0, 0},
    {"edit_name", {REGISTER, 0, N(15) | N(17) | N(18)}, 0, 0, 0},
    {"edit_link", {REGISTER, 0, N(7) | N(15) | N(17) | N(18) | N(20)}, 0, 0, 0},
    {"undo", {REGISTER, 0, N(17) | N(19) | N(20)}, 0, 0, 0},
    {"keep", {REGISTER, 0, N(17)}, 0, 0, 0},
};

/* Which of them it has given. */
static uint32_t met[CALLS][3];

/* The four numbers, and one on either side of them. */
struct answer {
    uint64_t front;
    uint64_t numbers[4];
    uint64_t back;
};

static struct answer fresh(void) {
    struct answer answer;
    answer.front = answer.back = UINT64_C(0x5AFE5AFE5AFE5AFE);
    memset(answer.numbers, 0xEE, sizeof answer.numbers);
    return answer;
}

/* Holds an answer to what the header says of it; 1 where it is no refusal.
 * The lengths are those of the image or buffer and of the message. */
static int judged(int which, const struct answer *answer, size_t image,
                  size_t message) {
    struct call *call = &calls[which];
    const uint64_t *numbers = answer->numbers;
    require(answer->front == UINT64_C(0x5AFE5AFE5AFE5AFE) &&
                answer->back == UINT64_C(0x5AFE5AFE5AFE5AFE),
            "written beside the answer");
    if (numbers[0] == SVELGANDUR_REFUSED) {
        const size_t ends[3] = {image, message, 0};
        require(numbers[1] <= SVELGANDUR_CALL, "no such side");
        require(numbers[2] < 32 &&
                    call->sides[numbers[1]] & N((unsigned)numbers[2]),
                "a refusal that is not the call's own");
        require(numbers[3] <= ends[numbers[1]], "a place outside");
        met[which][numbers[1]] |= N((unsigned)numbers[2]);
        call->refused++;
        return 0;
    }
    if (numbers[0] == SVELGANDUR_NO) {
        require(which == MEMBER, "a no that is not the call's own");
        require(!numbers[1] && !numbers[2] && !numbers[3], "a no with numbers");
        call->no++;
        return 1;
    }
    require(numbers[0] == SVELGANDUR_GOOD, "no such kind");
    call->good++;
    return 1;
}

/* ---- inputs ---- */

static unsigned char image[MOST_BYTES];
static size_t image_length;
static unsigned char message[MOST_BYTES];
static size_t message_length;

static void put(unsigned char *bytes, size_t *length, int width, uint64_t value) {
    int left;
    for (left = width - 1; left >= 0; left--) {
        require(*length < MOST_BYTES, "an input too long");
        bytes[(*length)++] = (unsigned char)(value >> (8 * left));
    }
}

static void mend_head(unsigned char *bytes, size_t length) {
    bytes[0] = 1;
    bytes[1] = (unsigned char)((length - 3) >> 8);
    bytes[2] = (unsigned char)(length - 3);
}

/* Now and then name 63, which no item that is judged holds. */
static uint64_t few_names(void) {
    return (word() & word() & 0xF) |
           (uint64_t)!below(30) << SVELGANDUR_WITHDRAWN;
}

/* The names of an item, of which one in so many is withdrawn. */
static uint64_t item_names(uint64_t one_in) {
    return (word() & word() & 0xF) |
           (uint64_t)!below(one_in) << SVELGANDUR_WITHDRAWN;
}

/* A register: links in rising order, each there by chance. All, some or nearly
 * none of its items are withdrawn. */
static void make_image(void) {
    uint64_t items = below(40) ? 1 + below(6) : 1 + below(512);
    uint64_t one_in = below(30) ? below(3) ? 100 : 4 : 1;
    uint64_t chance = 1 + below(40), links = 0, from, role, to;
    size_t count_at;
    image_length = 0;
    put(image, &image_length, 3, 0);
    put(image, &image_length, 2, items);
    for (from = 0; from < items; from++)
        put(image, &image_length, 8, item_names(one_in));
    count_at = image_length;
    put(image, &image_length, 2, 0);
    for (from = 0; from < items; from++)
        for (role = 0; role < 3; role++)
            for (to = 0; to < items; to++)
                if (links < 4096 && below(chance + items / 8) == 0) {
                    put(image, &image_length, 2, from);
                    put(image, &image_length, 1, role);
                    put(image, &image_length, 2, to);
                    links++;
                }
    image[count_at] = (unsigned char)(links >> 8);
    image[count_at + 1] = (unsigned char)links;
    mend_head(image, image_length);
}

/* How many items the image says that it has, where it says so. */
static uint64_t items_said(void) {
    uint64_t said = image_length < 5 ? 0 : image[3] * 256u + image[4];
    return said ? said : 1;
}

/* p and q, now and then against the rules: two for each of 23, 24, 25. */
static const uint16_t *any_fraction(void) {
    static const uint16_t good[][2] = {{0, 1}, {1, 1}, {1, 2},
                                       {1, 3}, {2, 3}, {3, 4}};
    static const uint16_t bad[][2] = {{1, 0}, {1, 1001}, {3, 2},
                                      {4, 2}, {0, 2},    {2, 4}};
    return below(20) ? good[below(6)] : bad[below(6)];
}

/* The number of a comparison, now and then of none. */
static uint64_t any_comparison(void) {
    return below(40) ? below(4) : 4 + below(252);
}

static void make_node(int depth, int *nodes, int *thresholds);

static void make_threshold(int *thresholds) {
    const uint16_t *fraction = any_fraction();
    int inner_nodes = 1 + (int)below(8), none = 0;
    size_t length_at;
    --*thresholds;
    put(message, &message_length, 1, any_comparison());
    put(message, &message_length, 2, fraction[0]);
    put(message, &message_length, 2, fraction[1]);
    length_at = message_length;
    put(message, &message_length, 2, 0);
    make_node(0, &inner_nodes, &none);
    message[length_at] = (unsigned char)((message_length - length_at - 2) >> 8);
    message[length_at + 1] = (unsigned char)(message_length - length_at - 2);
}

/* A node and what hangs below it, while nodes and thresholds are left. */
static void make_node(int depth, int *nodes, int *thresholds) {
    size_t counts;
    int children = 0, own = 0;
    --*nodes;
    put(message, &message_length, 8, few_names());
    counts = message_length;
    put(message, &message_length, 2, 0);
    while (*thresholds > 0 && below(2)) {
        make_threshold(thresholds);
        own++;
    }
    while (*nodes > 0 && depth < 16 && below(3)) {
        put(message, &message_length, 1, below(3));
        make_node(depth + 1, nodes, thresholds);
        children++;
    }
    message[counts] = (unsigned char)own;
    message[counts + 1] = (unsigned char)children;
}

static void make_message(void) {
    int nodes = 1 + (int)below(below(8) ? 6 : 64);
    int thresholds = below(2) ? 0 : (int)below(17);
    message_length = 0;
    put(message, &message_length, 3, 0);
    make_node(0, &nodes, &thresholds);
    mend_head(message, message_length);
}

/* Some bytes changed, cut off or put in, the head mended or not. */
static void damage(unsigned char *bytes, size_t *length) {
    uint64_t times = 1 + below(3);
    while (times-- && *length) {
        size_t at = below(*length);
        switch (below(4)) {
        case 0:
            *length = at;
            break;
        case 1:
            memmove(bytes + at + 1, bytes + at, *length - at);
            ++*length;
            break;
        default:
            bytes[at] = (unsigned char)(below(2) ? word() : bytes[at] + 1u);
        }
    }
    if (*length >= 3 && below(3))
        mend_head(bytes, *length);
}

/* ---- the calls on one image and one message ---- */

static void reading(void) {
    struct lent bytes = lend(image, image_length, 1);
    struct answer answer = fresh();
    svelgandur_read_register(bytes.at, bytes.bytes, below(2), answer.numbers);
    if (judged(READ_REGISTER, &answer, bytes.bytes, 0))
        require(answer.numbers[1] - 1 < 512 && answer.numbers[2] <= 4096 &&
                    !answer.numbers[3],
                "counts out of range");
    require(as_it_was(bytes), "an image was written");
    take_back(bytes);

    bytes = lend(message, message_length, 1);
    answer = fresh();
    svelgandur_read_requirement(bytes.at, bytes.bytes, answer.numbers);
    if (judged(READ_REQUIREMENT, &answer, 0, bytes.bytes))
        require(answer.numbers[1] - 1 < 64 && answer.numbers[2] <= 16 &&
                    !answer.numbers[3],
                "counts out of range");
    answer = fresh();
    svelgandur_inner_part(bytes.at, bytes.bytes, number(16), answer.numbers);
    if (judged(INNER_PART, &answer, 0, bytes.bytes))
        require(answer.numbers[1] <= bytes.bytes && answer.numbers[2] >= 10 &&
                    answer.numbers[2] <= bytes.bytes - answer.numbers[1],
                "a part outside the message");
    require(as_it_was(bytes), "a message was written");
    take_back(bytes);
}

/* ---- writing ---- */

/* A list that forms a tree but for a number now and then; how many nodes. */
static size_t make_list(struct svelgandur_node *nodes, uint64_t most) {
    size_t count = (size_t)below(most), at;
    uint64_t depth = 0;
    for (at = 0; at < count; at++) {
        nodes[at].names = few_names();
        nodes[at].depth = below(40) ? depth : number(17);
        nodes[at].role = below(40) ? below(32) : number(32);
        depth = 1 + below(nodes[at].depth < 14 ? nodes[at].depth + 1 : 14);
    }
    return count;
}

static void writing(void) {
    static struct svelgandur_node nodes[80], inner[20 * 12];
    static struct svelgandur_threshold thresholds[20];
    static unsigned char bytes[13000];
    size_t node_count = make_list(nodes, below(8) ? 12 : 80), inner_count = 0;
    size_t count = (size_t)(below(8) ? below(4) : below(20)), at, room;
    struct lent first, second, third, out;
    struct answer answer = fresh();
    uint64_t owner = 0;
    for (at = 0; at < count; at++) {
        const uint16_t *fraction = any_fraction();
        size_t own = make_list(inner + inner_count, 12);
        if (node_count > owner + 1 && !below(2))
            owner += below(node_count - owner);
        thresholds[at].node = below(40) ? owner : number(4);
        thresholds[at].comparison = below(20) ? any_comparison() : number(4);
        thresholds[at].p = below(20) ? fraction[0] : number(4);
        thresholds[at].q = below(20) ? fraction[1] : number(5);
        thresholds[at].inner_nodes = below(40) ? own : number(12);
        inner_count += own;
    }
    first = lend(nodes,
                 node_count * sizeof *nodes -
                     (node_count && !below(60) ? 8 : 0),
                 1);
    second = lend(thresholds, count * sizeof *thresholds, 1);
    third = lend(inner, inner_count * sizeof *inner, 1);
    for (room = 0; room < sizeof bytes; room++)
        bytes[room] = (unsigned char)word();
    room = below(4) ? 12066 : (size_t)below(200);
    out = lend(bytes, room, 0);
    svelgandur_write_requirement(
        (uint64_t *)(void *)first.at, first.bytes / 8,
        (uint64_t *)(void *)second.at, second.bytes / 8,
        (uint64_t *)(void *)third.at, third.bytes / 8, out.at, out.bytes,
        answer.numbers);
    if (judged(WRITE_REQUIREMENT, &answer, 0, 0)) {
        size_t length = (size_t)answer.numbers[1];
        struct answer read = fresh();
        require(length <= room && !answer.numbers[2] && !answer.numbers[3],
                "a message longer than its room");
        require(!memcmp(out.at + length, out.before + length, room - length),
                "bytes behind the message were written");
        svelgandur_read_requirement(out.at, length, read.numbers);
        require(read.numbers[0] == SVELGANDUR_GOOD &&
                    read.numbers[1] == node_count && read.numbers[2] == count,
                "what was written does not read back");
    } else
        require(as_it_was(out), "a refused writing wrote");
    require(as_it_was(first) && as_it_was(second) && as_it_was(third),
            "a list was written");
    take_back(out);
    take_back(third);
    take_back(second);
    take_back(first);
}

/* Whether an item of an image that was read is withdrawn: name 63 is the first
 * bit of its names. */
static int withdrawn(struct lent img, uint64_t item) {
    return img.at[5 + 8 * item] >> 7;
}

/* The two numbers for the asked item, where both sides were read: 15 exactly
 * where there is no such item, 26 exactly where it is withdrawn, and either
 * before any other of the call's own. */
static void judge_asked(struct lent img, uint64_t item,
                        const uint64_t *numbers) {
    uint64_t wanted = 0;
    if (numbers[0] == SVELGANDUR_REFUSED && numbers[1] != SVELGANDUR_CALL)
        return;
    if (item >= img.at[3] * 256u + img.at[4])
        wanted = 15;
    else if (withdrawn(img, item))
        wanted = 26;
    if (wanted)
        require(numbers[0] == SVELGANDUR_REFUSED && numbers[2] == wanted,
                "an item that cannot be asked for");
    else
        require(numbers[0] != SVELGANDUR_REFUSED ||
                    (numbers[2] != 15 && numbers[2] != 26),
                "an item that can be asked for");
}

/* After a good answer so many places hold an item that is not withdrawn, or a
 * number that stands for none where there may be one; the others are as they
 * were. */
static void judge_map(struct lent img, struct lent map, uint64_t written,
                      int may_be_none) {
    uint64_t items = img.at[3] * 256u + img.at[4];
    size_t place;
    require(written * 2 <= map.bytes, "more places than there are");
    for (place = 0; place < map.bytes / 2; place++) {
        uint16_t now, then;
        memcpy(&now, map.at + 2 * place, 2);
        memcpy(&then, map.before + 2 * place, 2);
        if (place >= written)
            require(now == then, "a place behind the nodes was written");
        else
            require((now < items && !withdrawn(img, now)) ||
                        (may_be_none && now >= SVELGANDUR_DROPPED),
                    "no item in the map");
    }
}

static void questions(void) {
    static uint16_t places[80];
    struct lent img = lend(image, image_length, 1);
    struct lent msg = lend(message, message_length, 1);
    struct lent map = lend(places, 2 * (below(4) ? 64 : below(80)), 0);
    uint16_t *map_at = (uint16_t *)(void *)map.at;
    uint64_t item = number(items_said());
    const uint16_t *fraction = any_fraction();
    struct answer answer = fresh();
    svelgandur_degree(img.at, img.bytes, msg.at, msg.bytes, item, map_at,
                      map.bytes / 2, answer.numbers);
    if (judged(DEGREE, &answer, img.bytes, msg.bytes)) {
        require(answer.numbers[1] <= answer.numbers[2] && answer.numbers[2],
                "a degree above 1");
        judge_map(img, map, answer.numbers[3], 1);
    } else
        require(as_it_was(map), "a refused degree wrote to the map");
    judge_asked(img, item, answer.numbers);
    memcpy(map.at, map.before, map.bytes);

    answer = fresh();
    svelgandur_member(img.at, img.bytes, msg.at, msg.bytes, item, map_at,
                      map.bytes / 2, answer.numbers);
    if (judged(MEMBER, &answer, img.bytes, msg.bytes) &&
        answer.numbers[0] == SVELGANDUR_GOOD)
        judge_map(img, map, answer.numbers[1], 0);
    else
        require(as_it_was(map), "a no or a refusal wrote to the map");
    judge_asked(img, item, answer.numbers);

    answer = fresh();
    svelgandur_margin(img.at, img.bytes, msg.at, msg.bytes, item,
                      below(4) ? fraction[0] : number(4),
                      below(4) ? fraction[1] : number(5), answer.numbers);
    if (judged(MARGIN, &answer, img.bytes, msg.bytes))
        require(answer.numbers[1] <= answer.numbers[2] &&
                    answer.numbers[2] <= UINT64_C(3486784401000) &&
                    answer.numbers[3] <= 1,
                "a margin out of range");
    judge_asked(img, item, answer.numbers);
    require(as_it_was(img) && as_it_was(msg), "an image or message was written");
    take_back(map);
    take_back(msg);
    take_back(img);
}

/* After a good answer each place of a written node at an item holds a number
 * that is not above a scale, the first row's not above the root's, and 0 where
 * the item is withdrawn; the places behind are as they were. */
static void judge_table(struct lent img, struct lent table,
                        const uint64_t *numbers) {
    uint64_t items = numbers[1], nodes = numbers[2], scale = numbers[3];
    size_t place;
    require(items - 1 < 512 && nodes - 1 < 64, "counts out of range");
    require(scale - 1 < UINT64_C(3486784401), "no such scale");
    require(items * nodes * 4 <= table.bytes, "more places than there are");
    for (place = 0; place < table.bytes / 4; place++) {
        uint32_t now, then;
        memcpy(&now, table.at + 4 * place, 4);
        memcpy(&then, table.before + 4 * place, 4);
        if (place >= items * nodes)
            require(now == then, "a place behind the rows was written");
        else {
            require(now <= (place < items ? scale : UINT64_C(3486784401)),
                    "a number above its scale");
            require(!now || !withdrawn(img, place % items),
                    "a number for an item that is withdrawn");
        }
    }
}

/* The degree that the list has for an item is the single call's, which has none
 * for a withdrawn item. */
static void judge_single(struct lent img, struct lent msg, struct lent table,
                         const uint64_t *numbers) {
    uint16_t map[64];
    uint64_t item = below(numbers[1]);
    uint32_t listed;
    struct answer answer = fresh();
    svelgandur_degree(img.at, img.bytes, msg.at, msg.bytes, item, map, 64,
                      answer.numbers);
    if (!judged(DEGREE, &answer, img.bytes, msg.bytes)) {
        require(answer.numbers[2] == 26 && withdrawn(img, item),
                "listed, and refused by itself");
        return;
    }
    require(!withdrawn(img, item), "a degree of an item that is withdrawn");
    memcpy(&listed, table.at + 4 * item, 4);
    require(answer.numbers[3] == numbers[2], "another count of nodes");
    require(listed * answer.numbers[2] == answer.numbers[1] * numbers[3],
            "another degree than the single call's");
}

/* A table is too short only for a register and a requirement that are read,
 * and where it has fewer places than nodes times items. */
static void judge_too_short(struct lent img, struct lent msg, size_t room) {
    struct answer items = fresh(), nodes = fresh();
    svelgandur_read_register(img.at, img.bytes, 0, items.numbers);
    svelgandur_read_requirement(msg.at, msg.bytes, nodes.numbers);
    require(judged(READ_REGISTER, &items, img.bytes, 0) &&
                judged(READ_REQUIREMENT, &nodes, 0, msg.bytes) &&
                room < items.numbers[1] * nodes.numbers[1],
            "a table that is long enough was refused");
}

static void whole_list(void) {
    static uint32_t places[64 * 512 + 100];
    size_t room = (size_t)(below(4) ? 64 * items_said() : below(200)), place;
    struct lent img = lend(image, image_length, 1);
    struct lent msg = lend(message, message_length, 1);
    struct lent table;
    struct answer answer = fresh();
    if (room > 64 * 512)
        room = 64 * 512;
    room += (size_t)below(9);
    for (place = 0; place < room; place++)
        places[place] = (uint32_t)word();
    table = lend(places, 4 * room, 0);
    svelgandur_list(img.at, img.bytes, msg.at, msg.bytes,
                    (uint32_t *)(void *)table.at, room, answer.numbers);
    if (judged(LIST, &answer, img.bytes, msg.bytes)) {
        judge_table(img, table, answer.numbers);
        judge_single(img, msg, table, answer.numbers);
    } else {
        require(as_it_was(table), "a refused list wrote to the table");
        if (answer.numbers[2] == 16)
            judge_too_short(img, msg, room);
    }
    require(as_it_was(img) && as_it_was(msg), "an image or message was written");
    take_back(table);
    take_back(msg);
    take_back(img);
}

/* ---- a session ---- */

/* After an edit or an undo the buffer begins with an image, and all that was
 * behind it and behind five bytes more is as it was. */
static void judge_buffer(struct lent buffer, int changed) {
    struct answer answer = fresh();
    size_t end;
    if (!changed) {
        require(as_it_was(buffer), "a refused call wrote to the buffer");
        return;
    }
    svelgandur_read_register(buffer.at, buffer.bytes, 1, answer.numbers);
    require(judged(READ_REGISTER, &answer, buffer.bytes, 0), "no image any more");
    end = 3 + (size_t)buffer.before[1] * 256 + buffer.before[2];
    if (end + 5 < buffer.bytes)
        require(!memcmp(buffer.at + end + 5, buffer.before + end + 5,
                        buffer.bytes - end - 5),
                "bytes behind the image were written");
}

static void edit_or_undo(struct lent buffer, struct lent log, uint64_t *count) {
    uint64_t *log_at = (uint64_t *)(void *)log.at;
    size_t steps = log.bytes / 8, place;
    uint64_t handed = below(12) ? *count : number(steps + 1);
    struct answer answer = fresh();
    int which = below(3) ? below(3) ? EDIT_LINK : EDIT_NAME : UNDO, good;
    memcpy(buffer.before, buffer.at, buffer.bytes);
    memcpy(log.before, log.at, log.bytes);
    if (which == UNDO)
        svelgandur_undo(buffer.at, buffer.bytes, log_at, steps, handed,
                        answer.numbers);
    else if (which == EDIT_NAME)
        svelgandur_edit_name(buffer.at, buffer.bytes, log_at, steps, handed,
                             below(2), number(items_said()), number(64),
                             answer.numbers);
    else
        svelgandur_edit_link(buffer.at, buffer.bytes, log_at, steps, handed,
                             below(2), number(items_said()), number(4),
                             number(items_said()), answer.numbers);
    good = judged(which, &answer, buffer.bytes, 0);
    judge_buffer(buffer, good);
    for (place = 0; place < steps; place++)
        if (!(good && which != UNDO && place == handed))
            require(!memcmp(log.at + 8 * place, log.before + 8 * place, 8),
                    "another number of the log was written");
    if (good) {
        require(answer.numbers[1] == (which == UNDO ? handed - 1 : handed + 1),
                "a wrong count");
        *count = answer.numbers[1];
    }
}

static void session(void) {
    static unsigned char bytes[MOST_BYTES + 400];
    static uint64_t numbers[80];
    size_t room = below(3) ? below(10) : below(400), place, rounds = 20;
    struct lent buffer, log;
    struct answer answer = fresh();
    uint64_t count = 0;
    memcpy(bytes, image, image_length);
    memset(bytes + image_length, 0xEE, room);
    for (place = 0; place < 80; place++)
        numbers[place] = below(2) ? word() : word() >> (38 + below(26));
    buffer = lend(bytes, image_length + room, 0);
    log = lend(numbers, 8 * below(below(2) ? 6 : 80), 0);
    if (below(4)) {
        svelgandur_open(buffer.at, buffer.bytes, answer.numbers);
        if (judged(OPEN, &answer, buffer.bytes, 0)) {
            size_t end = 3 + (size_t)buffer.at[1] * 256 + buffer.at[2];
            require(!memcmp(buffer.at, buffer.before, end),
                    "opening changed the image");
            for (place = end; place < buffer.bytes; place++)
                require(!buffer.at[place], "not zero behind the image");
        } else
            require(as_it_was(buffer), "a refused opening wrote");
    } else
        count = number(log.bytes / 8 + 1);
    while (rounds--)
        edit_or_undo(buffer, log, &count);
    memcpy(buffer.before, buffer.at, buffer.bytes);
    memcpy(log.before, log.at, log.bytes);
    answer = fresh();
    svelgandur_keep(buffer.at, buffer.bytes, (uint64_t *)(void *)log.at,
                    log.bytes / 8, below(2) ? count : word(), answer.numbers);
    if (judged(KEEP, &answer, buffer.bytes, 0))
        require(!answer.numbers[1], "keeping leaves a count");
    require(as_it_was(buffer) && as_it_was(log), "keeping wrote");
    take_back(log);
    take_back(buffer);
}

/* Every call that can refuse a threshold for its comparison, p or q, or an item
 * because it is withdrawn, did so, on each side that it can. */
static void require_met(int which) {
    int side;
    for (side = 0; side < 3; side++)
        require(!(calls[which].sides[side] & (N(13) | FRACTION | N(26)) &
                  ~met[which][side]),
                "a refusal that was not met");
}

int main(int words, char **word_list) {
    uint64_t rounds, total = 0;
    int which;
    if (words != 3) {
        fprintf(stderr, "boundary SEED ROUNDS\n");
        return 2;
    }
    state = strtoull(word_list[1], NULL, 10);
    for (rounds = strtoull(word_list[2], NULL, 10); rounds; rounds--) {
        make_image();
        make_message();
        if (!below(3))
            damage(image, &image_length);
        if (!below(3))
            damage(message, &message_length);
        reading();
        writing();
        questions();
        whole_list();
        session();
    }
    for (which = 0; which < CALLS; which++) {
        const struct call *call = &calls[which];
        uint64_t made = call->good + call->no + call->refused;
        total += made;
        printf("boundary: %s: %" PRIu64 " good, %" PRIu64 " no, %" PRIu64
               " refused\n",
               call->name, call->good, call->no, call->refused);
        require(call->good && call->refused, "a call with one answer only");
        require_met(which);
    }
    printf("boundary: %" PRIu64 " calls\n", total);
    return 0;
}
