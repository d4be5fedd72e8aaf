/* lattice.h: a node of a group of replicas whose views of the group's updates are always comparable.
 *
 * Made by bindings/generate from bindings/calls and crates/lattice_c: not to be edited.
 *
 * What the caller is trusted with, since nothing checks it:
 *
 * - A handle is what lattice_node_new puts into its place where it answers OK. Neither it nor a
 *   copy of it is used once lattice_node_free was called.
 *
 * - One call at a time is made on a handle. It may go from thread to thread, where a lock, a
 *   thread's start or a join orders the calls. Handles share nothing, and calls on different ones
 *   may run at the same time.
 *
 * - No pointer is null, even where its length is 0: where no votes are given, or no bytes, the
 *   address of anything goes there. Behind a pointer is as much as its type and its length say,
 *   which may be written where a result goes there, and which overlaps nothing else that the call
 *   is given.
 *
 * - The program's malloc, realloc and free are one allocator. No call is made from a signal
 *   handler, nor in a process that was forked after the node was made: the node would be there
 *   twice under one number.
 *
 * - Whatever carries the lines of messages may lose, repeat and reorder them. It never shortens or
 *   changes one: what is left may be another valid message, and then nodes differ without a word.
 *   What a broken connection left of a line is dropped.
 *
 * - A node that lattice_node_new made keeps nothing on a disk. So once it was stopped or lost, none
 *   may ever come back under its number in its group: it would give an id to two updates, or accept
 *   what it had refused. The others go on while they are a majority. The same holds of a node whose
 *   journal was lost, or went back to an earlier state.
 *
 * - The bytes of lattice_first_journal are for a replica that never was, once, and for a file where
 *   nothing stands: they come there as a whole, on the disk, or not at all. A file that is missing
 *   later is no first start, as its disk may not be mounted. So a program makes it only where a
 *   person tells it to, as counter.c does by `new`.
 *
 * - Of a node that lattice_node_recover made, the program's file has the bytes that were found, up
 *   to where they were to be kept, and they are on the disk before the node is asked for anything
 *   but its next record. If the process that wrote them was killed, they can be read though they
 *   are not on the disk yet, and the node takes them for kept: it may tell at once what they lead
 *   to. So sync the file first, or put a new one in its place, as counter.c does.
 *
 * - Behind those bytes the file has each record that lattice_next_record handed over, in their
 *   order, on the disk before lattice_synced is called. One process at a time has the file.
 */
#ifndef LATTICE_H
#define LATTICE_H

#include <stddef.h>
#include <stdint.h>

#ifdef __cplusplus
extern "C" {
#endif

#ifdef __cplusplus
#define LATTICE_STATIC_ASSERT(holds, text) static_assert(holds, text)
#else
#define LATTICE_STATIC_ASSERT(holds, text) _Static_assert(holds, text)
#endif

/* The version of this interface: lattice_version() answers the library's. */
#define LATTICE_VERSION 3u

/* A handle: one pointer, which is the library's. */
typedef struct lattice_node {
    void *at;
} lattice_node;
LATTICE_STATIC_ASSERT(sizeof(lattice_node) == 8, "the size of a lattice_node");
LATTICE_STATIC_ASSERT(offsetof(lattice_node, at) == 0, "where at is");

/* An update, as it is handed to C. */
typedef struct lattice_learnt {
    /* The largest amount or value of the operation: of kinds 1 to 4 and 7 its number, of kind 5 how
     * many puts it takes out; else 0.
     */
    uint64_t value;
    /* Its number among its replica's, from 1 on. */
    uint32_t number;
    /* The number of its object. */
    uint16_t object;
    /* The replica that submitted it. */
    uint8_t replica;
    /* What it does: 1 inc, 2 dec, 3 raise, 4 put, 5 remove, 6 mark, 7 vote, 8 an operation of one's
     * own.
     */
    uint8_t kind;
} lattice_learnt;
LATTICE_STATIC_ASSERT(sizeof(lattice_learnt) == 16, "the size of a lattice_learnt");
LATTICE_STATIC_ASSERT(offsetof(lattice_learnt, value) == 0, "where value is");
LATTICE_STATIC_ASSERT(offsetof(lattice_learnt, number) == 8, "where number is");
LATTICE_STATIC_ASSERT(offsetof(lattice_learnt, object) == 12, "where object is");
LATTICE_STATIC_ASSERT(offsetof(lattice_learnt, replica) == 14, "where replica is");
LATTICE_STATIC_ASSERT(offsetof(lattice_learnt, kind) == 15, "where kind is");

/* How a call ended. After a refusal the node is as before. */
enum lattice_status {
    /* The call was done. */
    LATTICE_OK = 0,
    /* Memory was refused. */
    LATTICE_MEMORY = 1,
    /* There is none: no mail, no further update, no outcome yet. */
    LATTICE_NONE = 2,
    /* The buffer has too little room. How much is wanted is told, and what was to be handed over
     * stays.
     */
    LATTICE_SMALL = 3,
    /* The object is of another kind than the question. */
    LATTICE_FOREIGN = 4,
    /* No object has this number. */
    LATTICE_NO_OBJECT = 5,
    /* An object has this number already. */
    LATTICE_TAKEN = 6,
    /* The object has absorbed updates before it was added, which no call here can bring about. */
    LATTICE_NOT_FRESH = 7,
    /* More than 64 puts of the element are seen, and a removal takes out at most 64. */
    LATTICE_TOO_MANY_TAGS = 8,
    /* An operation of one's own has more than 248 bytes, or an amount has more than 32 bits. */
    LATTICE_TOO_LARGE = 9,
    /* The numbers make no group: one of them is out of its range. */
    LATTICE_BAD_GROUP = 10,
    /* The group has no replica of this number. */
    LATTICE_NO_REPLICA = 11,
    /* The message belongs to an adopt-commit object that the group does not have. */
    LATTICE_NO_INSTANCE = 12,
    /* The node has submitted as many updates as its cap allows. */
    LATTICE_FULL = 13,
    /* The message stands on updates that this node does not have. */
    LATTICE_NO_BASE = 14,
    /* The message leaves out an update before one that it brings. */
    LATTICE_GAP = 15,
    /* The message has another update under an id that this node has: a node came back with less
     * than it had, or lies.
     */
    LATTICE_CLASH = 16,
    /* The node has opened as many ballots as there can be: 8,000,000. */
    LATTICE_BALLOTS_SPENT = 17,
    /* The group has no adopt-commit object of this number. */
    LATTICE_NO_COMMIT = 18,
    /* The node has proposed to this adopt-commit object before. */
    LATTICE_ALREADY_PROPOSED = 19,
    /* The message is for another replica, or for a group of another size. */
    LATTICE_ELSEWHERE = 20,
    /* The line is something that clients ask of a node, and no message. */
    LATTICE_NO_MESSAGE = 21,
    /* The line has more bytes than a message may have: 268,435,455 where it begins with n, o or t,
     * else 16,777,216.
     */
    LATTICE_TOO_LONG = 22,
    /* The line does not have the form of a message. */
    LATTICE_BAD_LINE = 23,
    /* A number in the line is malformed or out of its range. */
    LATTICE_BAD_NUMBER = 24,
    /* No kind of object has this number, or no kind of update that may be submitted so. */
    LATTICE_BAD_KIND = 25,
    /* The node has submitted something else under this number. */
    LATTICE_STALE = 26,
    /* The node has submitted nothing under this number, and it is not the next. */
    LATTICE_AHEAD = 27,
    /* The node took something that is not on the disk yet: its record is to be written first. */
    LATTICE_UNKEPT = 28,
    /* There is no byte, the bytes are no journal of this version, or their first line is damaged. */
    LATTICE_NO_JOURNAL = 29,
    /* The journal is that of another replica, or of a group with other replicas, commits, cap or
     * votes.
     */
    LATTICE_OTHER_JOURNAL = 30,
    /* The journal is damaged at a line that is told. No older copy may be put in its place: the
     * replica stays away.
     */
    LATTICE_DAMAGED = 31,
};

/* The kinds of objects, for lattice_add. */
enum lattice_object_kind {
    /* A counter: inc, dec, total, at_least. */
    LATTICE_COUNTER = 0,
    /* A max register: raise, largest. */
    LATTICE_MAX_REGISTER = 1,
    /* An observed-remove set: put, remove, has, size, items. */
    LATTICE_OR_SET = 2,
};

/* What an update does, and what its value is. */
enum lattice_update_kind {
    /* An addition to a counter, of this value. */
    LATTICE_UPDATE_INC = 1,
    /* A subtraction from a counter, of this value. */
    LATTICE_UPDATE_DEC = 2,
    /* A max register is at least this value. */
    LATTICE_UPDATE_RAISE = 3,
    /* An element of this value is put into a set. */
    LATTICE_UPDATE_PUT = 4,
    /* This many puts are taken out of a set. */
    LATTICE_UPDATE_REMOVE = 5,
    /* No object changes. */
    LATTICE_UPDATE_MARK = 6,
    /* A vote for this value, as only a peer that lies submits one here. */
    LATTICE_UPDATE_VOTE = 7,
    /* An operation of one's own, whose bytes are in the buffer. */
    LATTICE_UPDATE_OWN = 8,
};

/* The version of this interface: it grows where a call changes or goes. */
uint32_t lattice_version(void);

/* Makes replica `own` of a group in which nothing has happened, and puts it into a place, which
 * then is a handle. The group has 1 to 8 replicas with so many votes each (one each where none are
 * given), up to 16 adopt-commit objects, and a cap of 1 to 1,000,000 updates a replica.
 *
 * In this order: LATTICE_BAD_GROUP where one of these is out of its range; LATTICE_NO_REPLICA;
 * LATTICE_MEMORY. Then the place is as before.
 */
uint8_t lattice_node_new(uint8_t replicas, uint8_t own, uint8_t commits, uint32_t cap,
    const uint16_t *votes, size_t votes_len, lattice_node *out);

/* The bytes of the journal that replica `own` of a group begins with, into a buffer, and how many
 * they are: fewer than 256. They go into a file where no journal stands, on the disk, and then
 * `lattice_node_recover` plays them. They are for a replica that never was: one that lost its
 * journal must not begin anew. The numbers are as of `lattice_node_new`.
 *
 * In this order: as `lattice_node_new` ends, and LATTICE_SMALL where the buffer has less room than
 * there are bytes, which are told.
 */
uint8_t lattice_first_journal(uint8_t replicas, uint8_t own, uint8_t commits, uint32_t cap,
    const uint16_t *votes, size_t votes_len, uint8_t *buffer, size_t buffer_room, size_t *len);

/* Makes the same replica of the same group as before of what was found in its journal, and puts it
 * into a place, which then is a handle. No byte at all is no journal: the first bytes of a new one
 * are `lattice_first_journal`'s. Told is how many of the bytes the journal is to keep: behind them
 * stands what a crash left of a record, which is to be cut off, on the disk, before anything is put
 * behind. Objects are added anew, and all updates are handed over anew.
 *
 * What was found counts as kept, and the node may tell at once what it leads to. But what can be
 * read from a file need not be on the disk yet, if the process that wrote it was killed before its
 * sync. So sync the file first, or put a new one in its place, before the node is asked for
 * anything but its next record.
 *
 * In this order: as `lattice_node_new` ends, and LATTICE_NO_JOURNAL, LATTICE_OTHER_JOURNAL and
 * LATTICE_DAMAGED, and then the line is told, from 1. Then the place is as before.
 */
uint8_t lattice_node_recover(uint8_t replicas, uint8_t own, uint8_t commits, uint32_t cap,
    const uint16_t *votes, size_t votes_len, const uint8_t *found, size_t found_len, size_t *keep,
    size_t *line, lattice_node *out);

/* Frees a node. The handle, and each copy of it, is then no handle. */
void lattice_node_free(lattice_node handle);

/* Adds an object under a number: of kind 0 a counter, of kind 1 a max register, of kind 2 an
 * observed-remove set.
 *
 * LATTICE_BAD_KIND comes for any other kind, LATTICE_TAKEN where the number has an object, and else
 * LATTICE_MEMORY.
 */
uint8_t lattice_add(lattice_node *handle, uint16_t object, uint8_t kind);

/* Submits an addition to a counter, and answers the update's number. What is to be sent of it waits
 * then. A node with a journal may have lost it after a crash, until its record is on the disk; so
 * it is of all that it takes.
 *
 * LATTICE_FULL comes where the node has submitted its cap, and else LATTICE_MEMORY or
 * LATTICE_BALLOTS_SPENT; so it is of each call that submits.
 */
uint8_t lattice_inc(lattice_node *handle, uint16_t object, uint32_t by, uint32_t *number);

/* Submits a subtraction from a counter. */
uint8_t lattice_dec(lattice_node *handle, uint16_t object, uint32_t by, uint32_t *number);

/* Submits that a max register is at least this value. */
uint8_t lattice_raise(lattice_node *handle, uint16_t object, uint64_t to, uint32_t *number);

/* Submits that an element is put into an observed-remove set. */
uint8_t lattice_put(lattice_node *handle, uint16_t object, uint64_t element, uint32_t *number);

/* Submits that an element is taken out of an observed-remove set, as far as the view has it: what
 * was put in at the same time elsewhere stays, and so does a put of this node's own that the view
 * lacks.
 *
 * LATTICE_NO_OBJECT comes where there is no such object, LATTICE_TOO_MANY_TAGS where over 64 puts
 * of the element are seen; else it is as of each call that submits.
 */
uint8_t lattice_remove(lattice_node *handle, uint16_t object, uint64_t element, uint32_t *number);

/* Submits a mark, which changes no object. */
uint8_t lattice_mark(lattice_node *handle, uint16_t object, uint32_t *number);

/* Submits an operation of one's own: up to 248 bytes, which no object here takes. LATTICE_TOO_LARGE
 * comes exactly above that.
 */
uint8_t lattice_own(lattice_node *handle, uint16_t object, const uint8_t *bytes, size_t bytes_len,
    uint32_t *number);

/* Submits an operation as the node's update with this number, so that it counts once, however often
 * it is asked for. The operation is of a kind as `lattice_next_learnt` tells it, but of kinds 5 and
 * 7: of kinds 1 to 4 with this value, of kind 8 with these bytes of one's own.
 *
 * LATTICE_BAD_KIND comes for any other kind; LATTICE_TOO_LARGE where an amount has more than 32
 * bits or there are over 248 bytes; LATTICE_STALE where another submission has this number;
 * LATTICE_AHEAD where it is neither the next nor submitted; else it is as of each call that
 * submits.
 */
uint8_t lattice_submit_at(lattice_node *handle, uint32_t number, uint16_t object, uint8_t kind,
    uint64_t value, const uint8_t *bytes, size_t bytes_len);

/* Proposes a value to an adopt-commit object. What is to be sent of it waits then.
 *
 * LATTICE_NO_COMMIT comes where there is no such object, LATTICE_ALREADY_PROPOSED where the node
 * has proposed to it, and else LATTICE_MEMORY.
 */
uint8_t lattice_propose(lattice_node *handle, uint8_t commit, uint64_t value);

/* What the node returned from an adopt-commit object: the value, and whether it is committed (1) or
 * adopted (0).
 *
 * LATTICE_NONE comes where it has returned nothing yet, or there is no such object; LATTICE_UNKEPT
 * where what the node took is not on the disk yet.
 */
uint8_t lattice_outcome(lattice_node *handle, uint8_t commit, uint64_t *value, uint8_t *committed);

/* Takes the line of a message of another node, without its end, honest or not. What is to be sent
 * then waits: of a message without news, or that stands on updates which this node does not have,
 * how far this node is.
 *
 * LATTICE_TOO_LONG, LATTICE_BAD_LINE and LATTICE_BAD_NUMBER come where the bytes are no line of a
 * message, LATTICE_NO_MESSAGE where it is what a client asks, LATTICE_ELSEWHERE where it is for
 * another node or group; any other where the node refuses it, as no honest message is refused, and
 * LATTICE_MEMORY.
 */
uint8_t lattice_receive(lattice_node *handle, const uint8_t *bytes, size_t bytes_len);

/* The line of what is to be sent next, into a buffer: to whom it goes, and how many bytes it has.
 * It is then no longer there: whoever loses it, loses a message. What is for the node itself is
 * taken in before.
 *
 * LATTICE_NONE comes where nothing is to be sent; LATTICE_SMALL where the buffer has less room than
 * the line has bytes, which are told, and the line stays; LATTICE_MEMORY, and it stays;
 * LATTICE_UNKEPT where what the node took is not on the disk yet.
 */
uint8_t lattice_next_mail(lattice_node *handle, uint8_t *to, uint8_t *buffer, size_t buffer_room,
    size_t *len);

/* What waits for an answer is put behind what is to be sent once more, but for what others are
 * known to have. By a timer, at each node: one call may not do. Where all is known, it sends
 * nothing.
 */
uint8_t lattice_again(lattice_node *handle);

/* The bytes that the program has to put behind those of the node's journal next, into a buffer, and
 * how many they are: all that the node took since the last record. What it sends to itself is taken
 * in before. They are the same again until `lattice_synced`. A crash while they are put there may
 * leave any part of them.
 *
 * LATTICE_NONE comes where the node took nothing since, or has no journal; LATTICE_SMALL where the
 * buffer has less room than there are bytes, which are told.
 */
uint8_t lattice_next_record(lattice_node *handle, uint8_t *buffer, size_t buffer_room,
    size_t *len);

/* Takes note that the bytes of the last record are behind those of the journal, and on the disk:
 * then the node tells what it took. Where that failed the node is to be freed, and made anew of
 * what is found.
 *
 * LATTICE_NONE comes where no record was handed over since the last call.
 */
uint8_t lattice_synced(lattice_node *handle);

/* The next update that was learnt and not yet handed over: each is handed over once, of each
 * replica in the order of numbers. Of an operation of one's own the bytes go into a buffer, and how
 * many they are is told.
 *
 * LATTICE_NONE comes where there is no further one; LATTICE_SMALL where the buffer has less room
 * than there are bytes, and then the update stays; LATTICE_UNKEPT where what the node took is not
 * on the disk yet.
 */
uint8_t lattice_next_learnt(lattice_node *handle, lattice_learnt *out, uint8_t *buffer,
    size_t buffer_room, size_t *len);

/* How many updates of each replica the view has. LATTICE_UNKEPT comes where what the node took is
 * not on the disk yet.
 */
uint8_t lattice_view(lattice_node *handle, uint32_t counts[8]);

/* How many updates of each replica another node's view has at least, as far as was heard: none, of
 * a replica of 8 or more. LATTICE_UNKEPT comes where what the node took is not on the disk yet.
 */
uint8_t lattice_known(lattice_node *handle, uint8_t replica, uint32_t counts[8]);

/* How many updates the node has submitted: the number of the last. LATTICE_UNKEPT comes where what
 * the node took is not on the disk yet.
 */
uint8_t lattice_submitted(lattice_node *handle, uint32_t *number);

/* A counter's total: its increments less its decrements. LATTICE_NO_OBJECT comes where there is no
 * such object, LATTICE_FOREIGN where it is of another kind, LATTICE_UNKEPT where what the node took
 * is not on the disk yet, and LATTICE_MEMORY; so it is of each question.
 */
uint8_t lattice_total(lattice_node *handle, uint16_t object, int64_t *total);

/* Whether (1) or not (0) a counter's total is at least a number. */
uint8_t lattice_at_least(lattice_node *handle, uint16_t object, uint64_t bound, uint8_t *reached);

/* The largest value that a max register was raised to, or 0. */
uint8_t lattice_largest(lattice_node *handle, uint16_t object, uint64_t *largest);

/* Whether (1) or not (0) an observed-remove set has an element. */
uint8_t lattice_has(lattice_node *handle, uint16_t object, uint64_t element, uint8_t *has);

/* How many elements an observed-remove set has. */
uint8_t lattice_size(lattice_node *handle, uint16_t object, uint64_t *size);

/* An observed-remove set's elements in ascending order, into a buffer, and how many there are.
 * LATTICE_SMALL comes where the buffer has room for fewer: then they are only counted.
 */
uint8_t lattice_items(lattice_node *handle, uint16_t object, uint64_t *buffer, size_t buffer_room,
    size_t *len);

#undef LATTICE_STATIC_ASSERT

#ifdef __cplusplus
}
#endif

#endif
