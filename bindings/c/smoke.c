/* smoke.c: three nodes in one process, by every call of lattice.h and every status that a program can meet but
 * LATTICE_BALLOTS_SPENT, which takes 8,000,000 ballots.
 *
 * Messages go through a bag in this program, which hands them over in any order, loses some and repeats some. Two
 * threads run groups of their own at the same time. One part refuses each allocation of the library in turn: this
 * program has to be linked with --wrap=malloc and --wrap=realloc.
 */
#include "lattice.h"

#include <pthread.h>
#include <stdbool.h>
#include <stdio.h>
#include <stdlib.h>
#include <string.h>

#define CHECK(holds)                                                        \
    do {                                                                    \
        if (!(holds)) {                                                     \
            fprintf(stderr, "%s:%d: %s\n", __FILE__, __LINE__, #holds);     \
            exit(1);                                                        \
        }                                                                   \
    } while (0)

enum { NODES = 3, COUNTER = 1, REGISTER = 2, SET = 3, OWN = 4 };
/* The first bytes of a journal are fewer than FIRST_ROOM. */
enum { LINE_ROOM = 65536, OWN_ROOM = 248, FILE_ROOM = 65536, FIRST_ROOM = 256 };

/* The allocations of this thread that are still let through: below 0 all of them. */
static _Thread_local long allocations_left = -1;

void *__real_malloc(size_t size);
void *__real_realloc(void *block, size_t size);
void *__wrap_malloc(size_t size);
void *__wrap_realloc(void *block, size_t size);

static bool is_let_through(void) {
    if (allocations_left < 0) {
        return true;
    }
    if (allocations_left == 0) {
        return false;
    }
    allocations_left--;
    return true;
}

void *__wrap_malloc(size_t size) {
    return is_let_through() ? __real_malloc(size) : NULL;
}

void *__wrap_realloc(void *block, size_t size) {
    return is_let_through() ? __real_realloc(block, size) : NULL;
}

/* A message on its way. */
struct message {
    uint8_t to;
    size_t len;
    uint8_t *line;
};

/* A file with a journal. */
struct file {
    uint8_t bytes[FILE_ROOM];
    size_t len;
};

/* A group of nodes, and what is on its way between them. The first of them may have a journal. */
struct group {
    lattice_node nodes[NODES];
    struct file *journal;
    struct message *bag;
    size_t count;
    size_t room;
    uint64_t seed;
};

/* Marsaglia's xorshift: the next number, of 64 bits. */
static uint64_t drawn(struct group *group) {
    group->seed ^= group->seed << 13;
    group->seed ^= group->seed >> 7;
    group->seed ^= group->seed << 17;
    return group->seed;
}

static const uint16_t no_votes[1] = {0};

static void add_objects(lattice_node *node) {
    CHECK(lattice_add(node, COUNTER, LATTICE_COUNTER) == LATTICE_OK);
    CHECK(lattice_add(node, REGISTER, LATTICE_MAX_REGISTER) == LATTICE_OK);
    CHECK(lattice_add(node, SET, LATTICE_OR_SET) == LATTICE_OK);
}

/* Has on the disk what a node took, before anything of it is told: whether there was anything. */
static bool keep(lattice_node *node, struct file *file) {
    size_t len = 0;
    uint8_t status = lattice_next_record(node, file->bytes + file->len, FILE_ROOM - file->len, &len);
    if (status == LATTICE_NONE) {
        return false;
    }
    CHECK(status == LATTICE_OK && len > 0);
    file->len += len;
    CHECK(lattice_synced(node) == LATTICE_OK);
    return true;
}

static void begin(struct group *group, uint64_t seed) {
    memset(group, 0, sizeof *group);
    group->seed = seed;
    for (uint8_t own = 0; own < NODES; own++) {
        lattice_node *node = &group->nodes[own];
        CHECK(lattice_node_new(NODES, own, 2, 1000, no_votes, 0, node) == LATTICE_OK);
        add_objects(node);
    }
}

static void end(struct group *group) {
    for (int own = 0; own < NODES; own++) {
        lattice_node_free(group->nodes[own]);
    }
    for (size_t at = 0; at < group->count; at++) {
        free(group->bag[at].line);
    }
    free(group->bag);
}

static void throw_in(struct group *group, uint8_t to, const uint8_t *line, size_t len) {
    if (group->count == group->room) {
        group->room = 2 * group->room + 16;
        group->bag = realloc(group->bag, group->room * sizeof *group->bag);
        CHECK(group->bag != NULL);
    }
    uint8_t *copy = malloc(len + 1);
    CHECK(copy != NULL);
    memcpy(copy, line, len);
    group->bag[group->count++] = (struct message){.to = to, .len = len, .line = copy};
}

/* Puts all mail of the nodes into the bag. */
static void collect(struct group *group) {
    static _Thread_local uint8_t line[LINE_ROOM];
    if (group->journal) {
        keep(&group->nodes[0], group->journal);
    }
    for (int own = 0; own < NODES; own++) {
        for (;;) {
            uint8_t to = 255;
            size_t len = 0;
            uint8_t status = lattice_next_mail(&group->nodes[own], &to, line, sizeof line, &len);
            if (status == LATTICE_NONE) {
                break;
            }
            CHECK(status == LATTICE_OK && to < NODES && to != own && len <= sizeof line);
            throw_in(group, to, line, len);
        }
    }
}

/* Takes any message out of the bag. */
static struct message taken(struct group *group) {
    size_t at = drawn(group) % group->count;
    struct message message = group->bag[at];
    group->bag[at] = group->bag[--group->count];
    return message;
}

/* Hands over one message of the bag: in any order, some not at all and some twice. */
static void hand_over(struct group *group, unsigned lost_percent, unsigned twice_percent) {
    struct message message = taken(group);
    if (drawn(group) % 100 >= lost_percent) {
        CHECK(lattice_receive(&group->nodes[message.to], message.line, message.len) == LATTICE_OK);
    }
    if (drawn(group) % 100 < twice_percent) {
        throw_in(group, message.to, message.line, message.len);
    }
    free(message.line);
    collect(group);
}

static void hand_over_all(struct group *group) {
    collect(group);
    while (group->count > 0) {
        hand_over(group, 0, 0);
    }
}

static bool is_within(const uint32_t one[8], const uint32_t other[8]) {
    for (int replica = 0; replica < 8; replica++) {
        if (one[replica] > other[replica]) {
            return false;
        }
    }
    return true;
}

/* Of any two views one has all that the other has. */
static void check_comparable(struct group *group) {
    uint32_t views[NODES][8];
    for (int own = 0; own < NODES; own++) {
        CHECK(lattice_view(&group->nodes[own], views[own]) == LATTICE_OK);
    }
    for (int one = 0; one < NODES; one++) {
        for (int other = 0; other < one; other++) {
            CHECK(is_within(views[one], views[other]) || is_within(views[other], views[one]));
        }
    }
}

static uint32_t submitted(lattice_node *node) {
    uint32_t number = 0;
    CHECK(lattice_submitted(node, &number) == LATTICE_OK);
    return number;
}

/* Whether each node has learnt all that was submitted. */
static bool is_settled(struct group *group) {
    for (int own = 0; own < NODES; own++) {
        uint32_t counts[8];
        CHECK(lattice_view(&group->nodes[own], counts) == LATTICE_OK);
        for (int replica = 0; replica < NODES; replica++) {
            if (counts[replica] != submitted(&group->nodes[replica])) {
                return false;
            }
        }
    }
    return true;
}

/* Hands all over, and has it sent again, until all is learnt. */
static void settle(struct group *group) {
    for (int round = 0;; round++) {
        hand_over_all(group);
        if (is_settled(group)) {
            return;
        }
        CHECK(round < 100);
        for (int own = 0; own < NODES; own++) {
            CHECK(lattice_again(&group->nodes[own]) == LATTICE_OK);
        }
    }
}

static void check_objects(lattice_node *node) {
    int64_t total = 0;
    uint8_t answer = 2;
    uint64_t value = 0, items[2] = {0, 0};
    size_t len = 0;
    CHECK(lattice_total(node, COUNTER, &total) == LATTICE_OK && total == -2);
    CHECK(lattice_at_least(node, COUNTER, 0, &answer) == LATTICE_OK && answer == 0);
    CHECK(lattice_largest(node, REGISTER, &value) == LATTICE_OK && value == UINT64_MAX);
    CHECK(lattice_has(node, SET, 9, &answer) == LATTICE_OK && answer == 1);
    CHECK(lattice_has(node, SET, 8, &answer) == LATTICE_OK && answer == 0);
    CHECK(lattice_size(node, SET, &value) == LATTICE_OK && value == 2);
    CHECK(lattice_items(node, SET, items, 1, &len) == LATTICE_SMALL && len == 2 && items[0] == 0);
    CHECK(lattice_items(node, SET, items, 2, &len) == LATTICE_OK && len == 2);
    CHECK(items[0] == 4 && items[1] == 9);
}

static void check_outcome(lattice_node *node) {
    uint64_t value = 0;
    uint8_t committed = 2;
    CHECK(lattice_outcome(node, 0, &value, &committed) == LATTICE_OK && value == 42 && committed == 1);
    CHECK(lattice_outcome(node, 1, &value, &committed) == LATTICE_NONE && value == 42);
    CHECK(lattice_outcome(node, 2, &value, &committed) == LATTICE_NONE);
}

/* What is learnt is handed out once, of each replica in the order of numbers. */
static void check_learnt(lattice_node *node, const uint8_t *own_bytes) {
    static const lattice_learnt wanted[] = {
        {5, 1, COUNTER, 0, LATTICE_UPDATE_INC}, {UINT64_MAX, 2, REGISTER, 0, LATTICE_UPDATE_RAISE},
        {8, 3, SET, 0, LATTICE_UPDATE_PUT},     {1, 4, SET, 0, LATTICE_UPDATE_REMOVE},
        {7, 1, COUNTER, 1, LATTICE_UPDATE_DEC}, {0, 2, COUNTER, 1, LATTICE_UPDATE_MARK},
        {4, 3, SET, 1, LATTICE_UPDATE_PUT},     {0, 1, OWN, 2, LATTICE_UPDATE_OWN},
        {0, 2, OWN, 2, LATTICE_UPDATE_OWN},     {9, 3, SET, 2, LATTICE_UPDATE_PUT},
    };
    for (size_t at = 0; at < sizeof wanted / sizeof *wanted; at++) {
        lattice_learnt out = {0};
        uint8_t buffer[OWN_ROOM] = {0};
        size_t len = 1;
        bool is_long = at == 7;
        if (is_long) {
            CHECK(lattice_next_learnt(node, &out, buffer, OWN_ROOM - 1, &len) == LATTICE_SMALL);
            CHECK(len == OWN_ROOM && out.number == 0);
        }
        CHECK(lattice_next_learnt(node, &out, buffer, sizeof buffer, &len) == LATTICE_OK);
        CHECK(out.value == wanted[at].value && out.number == wanted[at].number);
        CHECK(out.object == wanted[at].object && out.replica == wanted[at].replica);
        CHECK(out.kind == wanted[at].kind && len == (is_long ? OWN_ROOM : 0));
        CHECK(!is_long || memcmp(buffer, own_bytes, OWN_ROOM) == 0);
    }
    lattice_learnt out;
    uint8_t buffer[OWN_ROOM];
    size_t len;
    CHECK(lattice_next_learnt(node, &out, buffer, sizeof buffer, &len) == LATTICE_NONE);
}

static void submit_each(struct group *group, const uint8_t *own_bytes) {
    lattice_node *nodes = group->nodes;
    uint32_t number = 0;
    CHECK(lattice_inc(&nodes[0], COUNTER, 5, &number) == LATTICE_OK && number == 1);
    CHECK(lattice_raise(&nodes[0], REGISTER, UINT64_MAX, &number) == LATTICE_OK && number == 2);
    CHECK(lattice_put(&nodes[0], SET, 8, &number) == LATTICE_OK && number == 3);
    settle(group);
    CHECK(lattice_remove(&nodes[0], SET, 8, &number) == LATTICE_OK && number == 4);
    CHECK(lattice_dec(&nodes[1], COUNTER, 7, &number) == LATTICE_OK && number == 1);
    CHECK(lattice_mark(&nodes[1], COUNTER, &number) == LATTICE_OK && number == 2);
    CHECK(lattice_put(&nodes[1], SET, 4, &number) == LATTICE_OK && number == 3);
    CHECK(lattice_own(&nodes[2], OWN, own_bytes, OWN_ROOM, &number) == LATTICE_OK && number == 1);
    CHECK(lattice_own(&nodes[2], OWN, own_bytes, 0, &number) == LATTICE_OK && number == 2);
    CHECK(lattice_put(&nodes[2], SET, 9, &number) == LATTICE_OK && number == 3);
    CHECK(submitted(&nodes[0]) == 4 && submitted(&nodes[2]) == 3);
}

/* Every call once, and what it answers. */
static void test_calls(void) {
    struct group group;
    uint8_t own_bytes[OWN_ROOM];
    for (int at = 0; at < OWN_ROOM; at++) {
        own_bytes[at] = (uint8_t)(at * 7);
    }
    CHECK(lattice_version() == LATTICE_VERSION);
    begin(&group, 1);
    submit_each(&group, own_bytes);
    for (int own = 0; own < NODES; own++) {
        CHECK(lattice_propose(&group.nodes[own], 0, 42) == LATTICE_OK);
    }
    settle(&group);
    for (int own = 0; own < NODES; own++) {
        check_objects(&group.nodes[own]);
        check_outcome(&group.nodes[own]);
        check_learnt(&group.nodes[own], own_bytes);
    }
    uint32_t view[8], known[8];
    CHECK(lattice_view(&group.nodes[0], view) == LATTICE_OK);
    CHECK(lattice_known(&group.nodes[0], 1, known) == LATTICE_OK);
    CHECK(view[0] == 4 && view[1] == 3 && view[2] == 3 && view[3] == 0 && is_within(known, view));
    end(&group);
}

/* What makes no group. A node of a group of one learns by itself. */
static void test_groups(void) {
    static const uint16_t votes[3] = {1, 1000, 3}, too_many[3] = {1, 1001, 1};
    lattice_node node = {NULL};
    uint32_t number = 0, counts[8];
    CHECK(lattice_node_new(0, 0, 0, 10, no_votes, 0, &node) == LATTICE_BAD_GROUP);
    CHECK(lattice_node_new(9, 0, 0, 10, no_votes, 0, &node) == LATTICE_BAD_GROUP);
    CHECK(lattice_node_new(3, 0, 17, 10, no_votes, 0, &node) == LATTICE_BAD_GROUP);
    CHECK(lattice_node_new(3, 0, 0, 0, no_votes, 0, &node) == LATTICE_BAD_GROUP);
    CHECK(lattice_node_new(3, 0, 0, 1000001, no_votes, 0, &node) == LATTICE_BAD_GROUP);
    CHECK(lattice_node_new(3, 0, 0, 10, votes, 2, &node) == LATTICE_BAD_GROUP);
    CHECK(lattice_node_new(3, 0, 0, 10, too_many, 3, &node) == LATTICE_BAD_GROUP);
    CHECK(lattice_node_new(3, 3, 0, 10, votes, 3, &node) == LATTICE_NO_REPLICA && node.at == NULL);
    CHECK(lattice_node_new(3, 2, 16, 10, votes, 3, &node) == LATTICE_OK && node.at != NULL);
    lattice_node_free(node);
    CHECK(lattice_node_new(1, 0, 0, 1, no_votes, 0, &node) == LATTICE_OK);
    CHECK(lattice_mark(&node, 9, &number) == LATTICE_OK && number == 1);
    CHECK(lattice_mark(&node, 9, &number) == LATTICE_FULL && number == 1);
    uint8_t line[LINE_ROOM], to;
    size_t len;
    CHECK(lattice_next_mail(&node, &to, line, sizeof line, &len) == LATTICE_NONE);
    CHECK(lattice_view(&node, counts) == LATTICE_OK && counts[0] == 1);
    lattice_node_free(node);
}

static void check_numbers(lattice_node *node) {
    int64_t total = 7;
    uint64_t value = 7;
    uint8_t answer = 7;
    uint32_t number = 7;
    size_t len = 7;
    CHECK(lattice_add(node, COUNTER, LATTICE_OR_SET) == LATTICE_TAKEN);
    CHECK(lattice_add(node, 9, 3) == LATTICE_BAD_KIND);
    CHECK(lattice_total(node, 9, &total) == LATTICE_NO_OBJECT && total == 7);
    CHECK(lattice_total(node, SET, &total) == LATTICE_FOREIGN && total == 7);
    CHECK(lattice_at_least(node, SET, 1, &answer) == LATTICE_FOREIGN);
    CHECK(lattice_largest(node, COUNTER, &value) == LATTICE_FOREIGN);
    CHECK(lattice_has(node, COUNTER, 1, &answer) == LATTICE_FOREIGN && answer == 7);
    CHECK(lattice_size(node, COUNTER, &value) == LATTICE_FOREIGN && value == 7);
    CHECK(lattice_items(node, COUNTER, &value, 1, &len) == LATTICE_FOREIGN && len == 7);
    CHECK(lattice_remove(node, 9, 1, &number) == LATTICE_NO_OBJECT && number == 7);
    CHECK(lattice_propose(node, 2, 1) == LATTICE_NO_COMMIT);
    CHECK(lattice_propose(node, 0, 1) == LATTICE_OK);
    CHECK(lattice_propose(node, 0, 1) == LATTICE_ALREADY_PROPOSED);
    uint8_t bytes[OWN_ROOM + 1] = {0};
    CHECK(lattice_own(node, OWN, bytes, sizeof bytes, &number) == LATTICE_TOO_LARGE && number == 7);
    CHECK(submitted(node) == 0);
}

/* Under a number a submission counts once. */
static void test_submit_at(void) {
    static const uint8_t bytes[OWN_ROOM + 1] = {0};
    lattice_node node;
    CHECK(lattice_node_new(3, 0, 0, 10, no_votes, 0, &node) == LATTICE_OK);
    CHECK(lattice_submit_at(&node, 0, COUNTER, LATTICE_UPDATE_INC, 5, bytes, 0) == LATTICE_AHEAD);
    CHECK(lattice_submit_at(&node, 2, COUNTER, LATTICE_UPDATE_INC, 5, bytes, 0) == LATTICE_AHEAD);
    CHECK(lattice_submit_at(&node, 1, COUNTER, LATTICE_UPDATE_INC, 5, bytes, 0) == LATTICE_OK);
    CHECK(lattice_submit_at(&node, 1, COUNTER, LATTICE_UPDATE_INC, 5, bytes, 0) == LATTICE_OK);
    CHECK(lattice_submit_at(&node, 1, COUNTER, LATTICE_UPDATE_INC, 6, bytes, 0) == LATTICE_STALE);
    CHECK(lattice_submit_at(&node, 1, REGISTER, LATTICE_UPDATE_INC, 5, bytes, 0) == LATTICE_STALE);
    CHECK(submitted(&node) == 1);
    CHECK(lattice_submit_at(&node, 2, COUNTER, LATTICE_UPDATE_REMOVE, 1, bytes, 0) == LATTICE_BAD_KIND);
    CHECK(lattice_submit_at(&node, 2, COUNTER, LATTICE_UPDATE_VOTE, 1, bytes, 0) == LATTICE_BAD_KIND);
    CHECK(lattice_submit_at(&node, 2, COUNTER, LATTICE_UPDATE_DEC, UINT32_MAX + 1ull, bytes, 0) == LATTICE_TOO_LARGE);
    CHECK(lattice_submit_at(&node, 2, OWN, LATTICE_UPDATE_OWN, 0, bytes, OWN_ROOM + 1) == LATTICE_TOO_LARGE);
    CHECK(lattice_submit_at(&node, 2, OWN, LATTICE_UPDATE_OWN, 0, bytes, OWN_ROOM) == LATTICE_OK);
    CHECK(lattice_submit_at(&node, 2, OWN, LATTICE_UPDATE_OWN, 0, bytes, OWN_ROOM - 1) == LATTICE_STALE);
    CHECK(lattice_submit_at(&node, 3, REGISTER, LATTICE_UPDATE_RAISE, 7, bytes, 0) == LATTICE_OK);
    CHECK(lattice_submit_at(&node, 4, SET, LATTICE_UPDATE_PUT, 7, bytes, 0) == LATTICE_OK);
    CHECK(lattice_submit_at(&node, 5, SET, LATTICE_UPDATE_MARK, 0, bytes, 0) == LATTICE_OK);
    CHECK(submitted(&node) == 5);
    lattice_node_free(node);
}

static uint8_t received(lattice_node *node, const char *line) {
    return lattice_receive(node, (const uint8_t *)line, strlen(line));
}

/* Lines that are no message for replica 1 of three, or one that no honest peer sends. */
static void check_lines(lattice_node *node) {
    CHECK(received(node, "") == LATTICE_BAD_LINE);
    CHECK(received(node, "hello") == LATTICE_BAD_LINE);
    CHECK(received(node, "yes 3 0 1 0 05 has 0 view 0") == LATTICE_BAD_NUMBER);
    CHECK(received(node, "tick") == LATTICE_NO_MESSAGE);
    CHECK(received(node, "submit 1 1 inc 5") == LATTICE_NO_MESSAGE);
    CHECK(received(node, "yes 3 0 2 0 5 has 0 view 0") == LATTICE_ELSEWHERE);
    CHECK(received(node, "yes 4 0 1 0 5 has 0 view 0") == LATTICE_ELSEWHERE);
    CHECK(received(node, "yes 3 7 1 0 5 has 0 view 0") == LATTICE_NO_REPLICA);
    CHECK(received(node, "yes 3 0 1 5 5 has 0 view 0") == LATTICE_NO_INSTANCE);
    CHECK(received(node, "offer 3 0 1 1 5 has 1 view 0 base 1;0.2 0 vote 5") == LATTICE_NO_BASE);
    CHECK(received(node, "offer 3 0 1 0 5 has 0 view 0 base 0;0.3 1 inc 5") == LATTICE_GAP);
    CHECK(received(node, "offer 3 0 1 0 1 has 0 view 0 base 0;0.1 1 inc 5") == LATTICE_OK);
    CHECK(received(node, "offer 3 0 1 0 1 has 0 view 0 base 0;0.1 1 inc 6") == LATTICE_CLASH);
    size_t len = 16777216 + 1;
    uint8_t *line = malloc(len);
    CHECK(line != NULL);
    memset(line, 'x', len);
    CHECK(lattice_receive(node, line, len) == LATTICE_TOO_LONG);
    CHECK(lattice_receive(node, line, len - 1) == LATTICE_BAD_LINE);
    free(line);
}

/* An offer over more than replica 1 of three has, which it does not take: it tells how far it is. */
static void check_base(lattice_node *node) {
    const char *told = "known 3 1 0 has 0 view 0 offer 1 tell 0";
    uint8_t to, line[LINE_ROOM];
    size_t len;
    CHECK(received(node, "offer 3 0 1 0 5 has 1 view 0 base 1;0.2 1 inc 5") == LATTICE_OK);
    CHECK(lattice_next_mail(node, &to, line, sizeof line, &len) == LATTICE_OK && to == 0);
    CHECK(len == strlen(told) && memcmp(line, told, len) == 0);
    CHECK(lattice_next_mail(node, &to, line, sizeof line, &len) == LATTICE_NONE);
}

/* An element that was put 65 times can't be taken out. */
static void check_tags(void) {
    lattice_node node;
    uint32_t number;
    CHECK(lattice_node_new(1, 0, 0, 1000, no_votes, 0, &node) == LATTICE_OK);
    CHECK(lattice_add(&node, SET, LATTICE_OR_SET) == LATTICE_OK);
    for (int times = 0; times < 65; times++) {
        uint8_t to, line[1];
        size_t len;
        CHECK(lattice_put(&node, SET, 5, &number) == LATTICE_OK);
        CHECK(lattice_next_mail(&node, &to, line, sizeof line, &len) == LATTICE_NONE);
    }
    CHECK(lattice_remove(&node, SET, 5, &number) == LATTICE_TOO_MANY_TAGS && number == 65);
    lattice_node_free(node);
}

/* Each refusal that a program can meet; after it the node is as before. */
static void test_refusals(void) {
    struct group group;
    begin(&group, 1);
    check_numbers(&group.nodes[0]);
    check_base(&group.nodes[1]);
    check_lines(&group.nodes[1]);
    end(&group);
    check_tags();
    begin(&group, 1);
    uint32_t number;
    uint8_t to = 255, line[LINE_ROOM];
    size_t len = 0, again = 0;
    CHECK(lattice_inc(&group.nodes[0], COUNTER, 5, &number) == LATTICE_OK);
    CHECK(lattice_next_mail(&group.nodes[0], &to, line, 1, &len) == LATTICE_SMALL && len > 1 && to == 255);
    CHECK(lattice_next_mail(&group.nodes[0], &to, line, len, &again) == LATTICE_OK && again == len);
    settle(&group);
    end(&group);
}

/* A few submissions while messages are lost, repeated and come in any order: all is learnt by all, and two views are
 * comparable at any time. */
static void run_lossy(uint64_t seed, int submissions) {
    struct group group;
    begin(&group, seed);
    int64_t sum = 0;
    for (int made = 0; made < submissions;) {
        uint64_t way = drawn(&group) % 16;
        uint32_t number;
        if (way < 3) {
            uint32_t by = (uint32_t)drawn(&group) % 1000;
            CHECK(lattice_inc(&group.nodes[way], COUNTER, by, &number) == LATTICE_OK);
            sum += by;
            made++;
        } else if (way == 3) {
            CHECK(lattice_again(&group.nodes[drawn(&group) % NODES]) == LATTICE_OK);
        } else if (group.count > 0) {
            hand_over(&group, 20, 20);
        }
        collect(&group);
        check_comparable(&group);
    }
    settle(&group);
    for (int own = 0; own < NODES; own++) {
        int64_t total;
        CHECK(lattice_total(&group.nodes[own], COUNTER, &total) == LATTICE_OK && total == sum);
    }
    end(&group);
}

/* Adopt-commit by all three over a lossy bag: whoever returns after one commits has the same value. */
static void run_proposals(uint64_t seed) {
    struct group group;
    begin(&group, seed);
    for (int own = 0; own < NODES; own++) {
        CHECK(lattice_propose(&group.nodes[own], 1, drawn(&group) % 2) == LATTICE_OK);
    }
    uint64_t values[NODES];
    uint8_t committed[NODES];
    for (int returned = 0, round = 0; returned < NODES; round++) {
        CHECK(round < 100);
        collect(&group);
        while (group.count > 0) {
            hand_over(&group, 20, 20);
        }
        returned = 0;
        for (int own = 0; own < NODES; own++) {
            CHECK(lattice_again(&group.nodes[own]) == LATTICE_OK);
            returned += lattice_outcome(&group.nodes[own], 1, &values[own], &committed[own]) == LATTICE_OK;
        }
    }
    for (int one = 0; one < NODES; one++) {
        for (int other = 0; other < NODES; other++) {
            CHECK(!committed[one] || values[one] == values[other]);
        }
    }
    end(&group);
}

/* Counts the refusals of a call that is made until memory is there. */
#define UNTIL_MEMORY(call)                                \
    do {                                                  \
        uint8_t answered = (call);                        \
        while (answered == LATTICE_MEMORY) {              \
            refused++;                                    \
            allocations_left = -1;                        \
            answered = (call);                            \
        }                                                 \
        CHECK(answered == LATTICE_OK);                    \
    } while (0)

/* One run whose allocation of this number is refused: how many calls were refused for it. Each is made once more. */
static int run_refused(long allocation) {
    struct group group;
    int refused = 0;
    int64_t total;
    uint32_t number;
    begin(&group, 1);
    allocations_left = allocation;
    for (int own = 0; own < NODES; own++) {
        lattice_node *node = &group.nodes[own];
        UNTIL_MEMORY(lattice_add(node, 9, LATTICE_OR_SET));
        UNTIL_MEMORY(lattice_inc(node, COUNTER, 1, &number));
        UNTIL_MEMORY(lattice_put(node, SET, 7, &number));
        UNTIL_MEMORY(lattice_remove(node, SET, 7, &number));
        UNTIL_MEMORY(lattice_own(node, OWN, (const uint8_t *)"bytes of one's own", 18, &number));
        UNTIL_MEMORY(lattice_propose(node, 0, 7));
        UNTIL_MEMORY(lattice_total(node, COUNTER, &total));
        UNTIL_MEMORY(lattice_again(node));
    }
    bool was_refused = allocations_left == 0;
    allocations_left = -1;
    settle(&group);
    for (int own = 0; own < NODES; own++) {
        CHECK(lattice_total(&group.nodes[own], COUNTER, &total) == LATTICE_OK && total == NODES);
        CHECK(submitted(&group.nodes[own]) == 4);
    }
    end(&group);
    return was_refused ? refused + 1 : refused;
}

/* Messages of which each is received with one allocation refused, and then once more. */
static int receive_refused(long allocation) {
    static _Thread_local uint8_t line[LINE_ROOM];
    struct group group;
    int refused = 0;
    uint32_t number;
    begin(&group, 1);
    CHECK(lattice_inc(&group.nodes[0], COUNTER, 1, &number) == LATTICE_OK);
    for (int left = 1; left > 0;) {
        left = 0;
        for (int own = 0; own < NODES; own++) {
            uint8_t to = 255, status = LATTICE_MEMORY;
            size_t len = 0;
            while (status == LATTICE_MEMORY) {
                allocations_left = refused ? -1 : allocation;
                status = lattice_next_mail(&group.nodes[own], &to, line, sizeof line, &len);
                refused += status == LATTICE_MEMORY;
            }
            allocations_left = -1;
            if (status == LATTICE_OK) {
                left++;
                int before = refused;
                allocations_left = allocation;
                UNTIL_MEMORY(lattice_receive(&group.nodes[to], line, len));
                allocations_left = -1;
                /* Reading a line takes memory: where the first is refused, the call is. */
                CHECK(allocation > 0 || refused > before);
            }
        }
    }
    settle(&group);
    end(&group);
    return refused;
}

/* Memory that is refused, at each allocation in turn: the call says so, and succeeds the next time. */
static void test_memory(void) {
    lattice_node node = {NULL};
    allocations_left = 0;
    CHECK(lattice_node_new(3, 0, 0, 10, no_votes, 0, &node) == LATTICE_MEMORY && node.at == NULL);
    allocations_left = -1;
    int refused = 0, received = 0;
    for (long allocation = 0; allocation < 200; allocation++) {
        refused += run_refused(allocation) > 0;
    }
    for (long allocation = 0; allocation < 20; allocation++) {
        received += receive_refused(allocation) > 0;
    }
    CHECK(refused > 20 && received > 0);
}

/* A node by its journal: what is behind the bytes that are to be kept is cut, and objects are added anew. There is no
 * record of that. */
static uint8_t recover(lattice_node *node, uint8_t own, struct file *file, size_t *line) {
    size_t kept = SIZE_MAX;
    uint8_t status = lattice_node_recover(NODES, own, 2, 1000, no_votes, 0, file->bytes, file->len, &kept, line, node);
    if (status == LATTICE_OK) {
        CHECK(kept <= file->len);
        file->len = kept;
        add_objects(node);
        CHECK(!keep(node, file));
    }
    return status;
}

/* Nothing is told of what is not on the disk yet, and no result is touched. */
static void check_unkept(lattice_node *node) {
    uint8_t byte = 7, buffer[OWN_ROOM] = {7};
    uint32_t number = 7, counts[8] = {7};
    uint64_t value = 7, items[2] = {7, 7};
    int64_t total = 7;
    size_t len = 7;
    lattice_learnt learnt = {.number = 7};
    CHECK(lattice_outcome(node, 0, &value, &byte) == LATTICE_UNKEPT);
    CHECK(lattice_next_mail(node, &byte, buffer, sizeof buffer, &len) == LATTICE_UNKEPT);
    CHECK(lattice_next_learnt(node, &learnt, buffer, sizeof buffer, &len) == LATTICE_UNKEPT);
    CHECK(lattice_view(node, counts) == LATTICE_UNKEPT);
    CHECK(lattice_known(node, 0, counts) == LATTICE_UNKEPT);
    CHECK(lattice_submitted(node, &number) == LATTICE_UNKEPT);
    CHECK(lattice_total(node, COUNTER, &total) == LATTICE_UNKEPT);
    CHECK(lattice_at_least(node, COUNTER, 0, &byte) == LATTICE_UNKEPT);
    CHECK(lattice_largest(node, REGISTER, &value) == LATTICE_UNKEPT);
    CHECK(lattice_has(node, SET, 1, &byte) == LATTICE_UNKEPT);
    CHECK(lattice_size(node, SET, &value) == LATTICE_UNKEPT);
    CHECK(lattice_items(node, SET, items, 2, &len) == LATTICE_UNKEPT);
    CHECK(byte == 7 && buffer[0] == 7 && number == 7 && counts[0] == 7 && value == 7 && items[0] == 7);
    CHECK(total == 7 && len == 7 && learnt.number == 7);
}

/* A record is the same until it is told to be on the disk, and a buffer too small takes none of it. */
static void check_record(lattice_node *node, struct file *file) {
    uint8_t *place = file->bytes + file->len, again[LINE_ROOM];
    size_t room = FILE_ROOM - file->len, len = 0, wanted = 0;
    place[0] = 7;
    CHECK(lattice_next_record(node, place, 0, &wanted) == LATTICE_SMALL && wanted > 1);
    CHECK(lattice_next_record(node, place, wanted - 1, &len) == LATTICE_SMALL && len == wanted && place[0] == 7);
    CHECK(lattice_next_record(node, place, wanted, &len) == LATTICE_OK && len == wanted);
    CHECK(lattice_next_record(node, again, room, &len) == LATTICE_OK && len == wanted);
    CHECK(memcmp(place, again, len) == 0 && place[len - 1] == '\n');
    file->len += len;
}

/* The first bytes of a journal, which are the same each time: they go whole into a buffer, or not at all. */
static void check_first(struct file *file) {
    static const uint16_t too_many[3] = {1, 1001, 1};
    uint8_t first[FIRST_ROOM], *bytes = file->bytes;
    size_t len = 7, again = 0;
    bytes[0] = 7;
    CHECK(lattice_first_journal(9, 9, 2, 1000, no_votes, 0, bytes, 0, &len) == LATTICE_BAD_GROUP);
    CHECK(lattice_first_journal(NODES, 0, 2, 1000, too_many, 3, bytes, 0, &len) == LATTICE_BAD_GROUP);
    CHECK(lattice_first_journal(NODES, NODES, 2, 1000, no_votes, 0, bytes, 0, &len) == LATTICE_NO_REPLICA && len == 7);
    allocations_left = 0;
    CHECK(lattice_first_journal(NODES, 0, 2, 1000, no_votes, 0, bytes, FILE_ROOM, &len) == LATTICE_MEMORY && len == 7);
    allocations_left = -1;
    CHECK(lattice_first_journal(NODES, 0, 2, 1000, no_votes, 0, bytes, 0, &len) == LATTICE_SMALL && len < FIRST_ROOM);
    CHECK(lattice_first_journal(NODES, 0, 2, 1000, no_votes, 0, bytes, len - 1, &again) == LATTICE_SMALL);
    CHECK(again == len && bytes[0] == 7);
    CHECK(lattice_first_journal(NODES, 0, 2, 1000, no_votes, 0, bytes, len, &file->len) == LATTICE_OK);
    CHECK(lattice_first_journal(NODES, 0, 2, 1000, no_votes, 0, first, sizeof first, &again) == LATTICE_OK);
    CHECK(file->len == len && again == len && memcmp(first, bytes, len) == 0 && bytes[len - 1] == '\n');
}

/* A new journal, and what is told before a sync and after it; answers how long its head is. No byte is no journal. */
static size_t check_new(lattice_node *node, struct file *file) {
    size_t kept = 7, line = 7, head = file->len;
    uint32_t number = 0;
    uint8_t *bytes = file->bytes;
    CHECK(lattice_node_recover(NODES, 0, 2, 1000, no_votes, 0, bytes, 0, &kept, &line, node) == LATTICE_NO_JOURNAL);
    CHECK(kept == 7 && line == 7 && node->at == NULL);
    CHECK(lattice_node_recover(NODES, 0, 2, 1000, no_votes, 0, bytes, head, &kept, &line, node) == LATTICE_OK);
    CHECK(kept == head && line == 7);
    CHECK(!keep(node, file) && lattice_synced(node) == LATTICE_NONE && submitted(node) == 0);
    add_objects(node);
    CHECK(!keep(node, file) && submitted(node) == 0);
    CHECK(lattice_inc(node, COUNTER, 5, &number) == LATTICE_OK && number == 1);
    check_unkept(node);
    CHECK(lattice_synced(node) == LATTICE_NONE);
    check_record(node, file);
    check_unkept(node);
    CHECK(lattice_synced(node) == LATTICE_OK && lattice_synced(node) == LATTICE_NONE);
    CHECK(submitted(node) == 1 && !keep(node, file));
    return head;
}

/* Several calls have one record, and refused ones none. */
static void check_calls(lattice_node *node, struct file *file) {
    uint32_t number = 0;
    uint8_t to = 0, line[LINE_ROOM];
    size_t len = 0;
    CHECK(lattice_put(node, SET, 8, &number) == LATTICE_OK && number == 2);
    CHECK(lattice_submit_at(node, 3, SET, LATTICE_UPDATE_PUT, 9, line, 0) == LATTICE_OK);
    CHECK(lattice_submit_at(node, 2, SET, LATTICE_UPDATE_PUT, 9, line, 0) == LATTICE_STALE);
    CHECK(lattice_propose(node, 0, 7) == LATTICE_OK && lattice_propose(node, 0, 7) == LATTICE_ALREADY_PROPOSED);
    CHECK(received(node, "offer 3 1 0 0 1 has 0 view 0 base 0;1.1 1 inc 5") == LATTICE_OK);
    CHECK(received(node, "hello") == LATTICE_BAD_LINE && lattice_again(node) == LATTICE_OK);
    check_unkept(node);
    CHECK(keep(node, file) && submitted(node) == 3);
    CHECK(lattice_next_mail(node, &to, line, sizeof line, &len) == LATTICE_OK && (to == 1 || to == 2));
}

/* A journal that is cut in its last record leads to what was told before that, and the node goes on from there. */
static void check_cuts(const struct file *file, size_t told) {
    static struct file cut;
    for (size_t len = told; len <= file->len; len++) {
        lattice_node node = {NULL};
        size_t line = 7;
        uint32_t wanted = len < file->len ? 1 : 3, number = 0;
        cut = *file;
        cut.len = len;
        CHECK(recover(&node, 0, &cut, &line) == LATTICE_OK && line == 7);
        CHECK(cut.len == (len < file->len ? told : len) && submitted(&node) == wanted);
        CHECK(lattice_mark(&node, COUNTER, &number) == LATTICE_OK && number == wanted + 1 && keep(&node, &cut));
        lattice_node_free(node);
        CHECK(recover(&node, 0, &cut, &line) == LATTICE_OK && submitted(&node) == number);
        lattice_node_free(node);
    }
}

/* What is no journal of this node, or damaged, leaves the places as they were, but for the damaged line. */
static void check_others(const struct file *file, size_t head) {
    static struct file other;
    lattice_node node = {NULL};
    size_t line = 7, kept = 7;
    uint8_t *bytes = other.bytes;
    other = *file;
    CHECK(recover(&node, 1, &other, &line) == LATTICE_OTHER_JOURNAL);
    CHECK(recover(&node, 3, &other, &line) == LATTICE_NO_REPLICA);
    uint8_t status = lattice_node_recover(3, 0, 2, 7, no_votes, 0, bytes, other.len, &kept, &line, &node);
    CHECK(status == LATTICE_OTHER_JOURNAL);
    CHECK(lattice_node_recover(9, 0, 2, 7, no_votes, 0, bytes, other.len, &kept, &line, &node) == LATTICE_BAD_GROUP);
    other.len = head - 1;
    CHECK(recover(&node, 0, &other, &line) == LATTICE_NO_JOURNAL);
    other = *file;
    bytes[0] ^= 1;
    CHECK(recover(&node, 0, &other, &line) == LATTICE_NO_JOURNAL && line == 7);
    other = *file;
    bytes[head] ^= 1;
    CHECK(lattice_node_recover(3, 0, 2, 1000, no_votes, 0, bytes, other.len, &kept, &line, &node) == LATTICE_DAMAGED);
    CHECK(line == 2 && kept == 7 && node.at == NULL);
}

/* Memory that is refused, at each allocation in turn: the first bytes are told, the node made, or the record handed out,
 * the next time. */
static void check_journal_memory(const struct file *file) {
    static struct file copy;
    int refused = 0;
    for (long allocation = 0, was_refused = 1; was_refused; allocation++) {
        lattice_node node = {NULL};
        size_t line = 7, kept = 7, len = 0;
        uint32_t number = 0;
        uint8_t first[FIRST_ROOM];
        was_refused = refused;
        copy = *file;
        allocations_left = allocation;
        UNTIL_MEMORY(lattice_first_journal(3, 0, 2, 1000, no_votes, 0, first, sizeof first, &len));
        CHECK(len > 0 && memcmp(first, copy.bytes, len) == 0);
        UNTIL_MEMORY(lattice_node_recover(3, 0, 2, 1000, no_votes, 0, copy.bytes, copy.len, &kept, &line, &node));
        UNTIL_MEMORY(lattice_inc(&node, COUNTER, 5, &number));
        UNTIL_MEMORY(lattice_next_record(&node, copy.bytes + copy.len, FILE_ROOM - copy.len, &len));
        allocations_left = -1;
        CHECK(kept == file->len && number == 4 && lattice_synced(&node) == LATTICE_OK);
        lattice_node_free(node);
        copy.len += len;
        CHECK(recover(&node, 0, &copy, &line) == LATTICE_OK && submitted(&node) == 4);
        lattice_node_free(node);
        was_refused = refused - was_refused;
    }
    CHECK(refused > 10);
}

/* A journal from its first byte on. */
static void test_journal(void) {
    static struct file file;
    lattice_node node = {NULL};
    uint8_t buffer[1];
    size_t len = 7;
    CHECK(lattice_node_new(NODES, 0, 2, 1000, no_votes, 0, &node) == LATTICE_OK);
    CHECK(lattice_next_record(&node, buffer, 1, &len) == LATTICE_NONE && lattice_synced(&node) == LATTICE_NONE);
    lattice_node_free(node);
    node.at = NULL;
    check_first(&file);
    size_t head = check_new(&node, &file), told = file.len;
    check_calls(&node, &file);
    lattice_node_free(node);
    check_cuts(&file, told);
    check_others(&file, head);
    check_journal_memory(&file);
}

/* The first node ends without what it took last, and comes back by its journal beside the others, who stay. */
static void restart(struct group *group) {
    size_t line = 7;
    lattice_node_free(group->nodes[0]);
    CHECK(recover(&group->nodes[0], 0, group->journal, &line) == LATTICE_OK);
}

/* Lives of one node beside two others, over a bag that loses, repeats and reorders. */
static void run_lives(uint64_t seed) {
    static struct file file;
    struct group group;
    size_t line = 7;
    uint32_t number = 0;
    int64_t total = 0;
    begin(&group, seed);
    lattice_node_free(group.nodes[0]);
    CHECK(lattice_first_journal(NODES, 0, 2, 1000, no_votes, 0, file.bytes, FILE_ROOM, &file.len) == LATTICE_OK);
    group.journal = &file;
    CHECK(recover(&group.nodes[0], 0, &file, &line) == LATTICE_OK);
    for (int64_t made = 0; made < 30;) {
        uint64_t way = drawn(&group) % 16;
        if (way < 3) {
            CHECK(lattice_inc(&group.nodes[way], COUNTER, 1, &number) == LATTICE_OK);
            made++;
        } else if (way == 3) {
            CHECK(lattice_again(&group.nodes[drawn(&group) % NODES]) == LATTICE_OK);
        } else if (way == 4) {
            keep(&group.nodes[0], &file);
            CHECK(lattice_mark(&group.nodes[0], COUNTER, &number) == LATTICE_OK);
            restart(&group); /* the mark is lost, and was told to nobody */
        } else if (group.count > 0) {
            hand_over(&group, 20, 20);
        }
        collect(&group);
        check_comparable(&group);
    }
    settle(&group);
    for (int own = 0; own < NODES; own++) {
        CHECK(lattice_total(&group.nodes[own], COUNTER, &total) == LATTICE_OK && total == 30);
    }
    restart(&group);
    CHECK(lattice_total(&group.nodes[0], COUNTER, &total) == LATTICE_OK && total == 30);
    end(&group);
}

static void *run_thread(void *seed) {
    for (uint64_t run = 0; run < 4; run++) {
        run_lossy(*(uint64_t *)seed + run, 40);
        run_proposals(*(uint64_t *)seed + run);
    }
    return NULL;
}

static void *add_one(void *node) {
    uint32_t number;
    CHECK(lattice_inc(node, COUNTER, 1, &number) == LATTICE_OK);
    return NULL;
}

/* Two threads have a group each; a handle goes to another thread and comes back. */
static void test_threads(void) {
    uint64_t seeds[2] = {1000, 2000};
    pthread_t threads[2], other;
    for (int at = 0; at < 2; at++) {
        CHECK(pthread_create(&threads[at], NULL, run_thread, &seeds[at]) == 0);
    }
    for (int at = 0; at < 2; at++) {
        CHECK(pthread_join(threads[at], NULL) == 0);
    }
    struct group group;
    begin(&group, 1);
    CHECK(pthread_create(&other, NULL, add_one, &group.nodes[1]) == 0);
    CHECK(pthread_join(other, NULL) == 0);
    settle(&group);
    CHECK(submitted(&group.nodes[1]) == 1);
    end(&group);
}

int main(void) {
    test_calls();
    test_groups();
    test_submit_at();
    test_refusals();
    test_memory();
    test_journal();
    for (uint64_t seed = 1; seed <= 8; seed++) {
        run_lossy(seed, 40);
        run_proposals(seed);
        run_lives(seed);
    }
    test_threads();
    puts("smoke: every call, every status, a lossy bag, journals, refused memory and two threads are right");
    return 0;
}
