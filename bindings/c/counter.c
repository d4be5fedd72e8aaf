/* A counter that outlasts its process: `counter FOLDER new` makes it, once, and `counter FOLDER [BY]` adds BY to it,
 * where that is given, and prints its total.
 *
 * It is a group of one node over FOLDER/journal, as `lattice init FOLDER --own 0 --replicas 1` makes it and `lattice
 * node --own 0 --replicas 1 --journal FOLDER` serves it: a crash at any moment takes nothing that was printed. */
#define _DEFAULT_SOURCE

#include "lattice.h"

#include <errno.h>
#include <fcntl.h>
#include <stdint.h>
#include <stdio.h>
#include <stdlib.h>
#include <string.h>
#include <sys/file.h>
#include <sys/stat.h>
#include <unistd.h>

/* The first bytes of a journal are fewer than FIRST_ROOM. */
enum { CAP = 1000000, VISITS = 1, PRIVATE = 0600, FIRST_ROOM = 256 };

/* None are given, so each replica has one vote. No pointer that the library is given may be null, even here. */
static const uint16_t no_votes[1] = {0};

struct bytes {
    uint8_t *at;
    size_t len;
};

static const char *const nothing_here =
    "nothing here: mount its disk; if it is lost, never run this counter again; a first start is `counter FOLDER new`";

/* Ends the program, which may be started again: the journal has all that was printed. */
static void stop(const char *what) {
    fprintf(stderr, "counter: %s: %s\n", what, errno ? strerror(errno) : "it failed");
    exit(1);
}

static void *room_for(size_t len) {
    void *room = malloc(len ? len : 1);
    if (!room) stop("memory");
    return room;
}

/* Puts bytes behind those of a file. */
static void put(int file, struct bytes bytes) {
    while (bytes.len > 0) {
        ssize_t count = write(file, bytes.at, bytes.len);
        if (count < 0) stop("write");
        bytes.at += count;
        bytes.len -= (size_t)count;
    }
}

/* Takes a folder, for this process alone. */
static void take(const char *folder) {
    if (chdir(folder) != 0) stop(folder);
    int lock = open("lock", O_WRONLY | O_CREAT | O_CLOEXEC, PRIVATE);
    if (lock < 0 || flock(lock, LOCK_EX | LOCK_NB) != 0) stop("lock");
}

/* What the journal has. Where there is none, none is begun: it may be that its disk is not mounted. */
static struct bytes found(void) {
    FILE *file = fopen("journal", "rb");
    if (!file) stop(errno == ENOENT ? nothing_here : "journal");
    if (fseek(file, 0, SEEK_END) != 0) stop("journal");
    struct bytes all = {NULL, (size_t)ftell(file)};
    rewind(file);
    all.at = room_for(all.len);
    if (fread(all.at, 1, all.len, file) != all.len) stop("journal");
    fclose(file);
    return all;
}

/* Puts bytes in the journal's place, on the disk, and answers the file. A crash at any moment leaves these or what was
 * there before, which may be none. */
static int replace(struct bytes bytes) {
    unlink("journal.new");
    int file = open("journal.new", O_WRONLY | O_CREAT | O_EXCL | O_APPEND | O_CLOEXEC, PRIVATE);
    if (file < 0) stop("journal.new");
    put(file, bytes);
    int here = open(".", O_RDONLY | O_DIRECTORY | O_CLOEXEC);
    if (fsync(file) != 0 || rename("journal.new", "journal") != 0 || here < 0 || fsync(here) != 0) stop("journal");
    close(here);
    return file;
}

/* Makes the journal of a counter that never was, where none stands, also no empty one. */
static void make(void) {
    struct stat there;
    uint8_t bytes[FIRST_ROOM];
    struct bytes first = {bytes, 0};
    if (lstat("journal", &there) == 0) errno = EEXIST;
    if (errno != ENOENT) stop("journal");
    errno = 0;
    if (lattice_first_journal(1, 0, 0, CAP, no_votes, 0, bytes, sizeof bytes, &first.len) != LATTICE_OK)
        stop("a new journal");
    close(replace(first));
}

/* The node's next record; no bytes where it took nothing. */
static struct bytes record_of(lattice_node *node) {
    uint8_t none;
    struct bytes record = {&none, 0};
    uint8_t status = lattice_next_record(node, &none, 0, &record.len);
    record.at = room_for(record.len);
    if (status == LATTICE_NONE) record.len = 0;
    else if (lattice_next_record(node, record.at, record.len, &record.len) != LATTICE_OK) stop("a record");
    return record;
}

/* Makes the node of what the journal has. What was read there need not be on the disk yet, if the process that wrote it
 * was killed. So a new file, on the disk, takes the journal's place before the node tells anything. */
static int start(lattice_node *node) {
    size_t kept, line = 0;
    struct bytes journal = found();
    errno = 0;
    if (lattice_node_recover(1, 0, 0, CAP, no_votes, 0, journal.at, journal.len, &kept, &line, node) != LATTICE_OK)
        stop("journal");
    int file = replace((struct bytes){journal.at, kept});
    free(journal.at);
    return file;
}

/* Puts what the node took on the disk. Only then may anybody be told of it. */
static void keep(lattice_node *node, int journal) {
    struct bytes record = record_of(node);
    put(journal, record);
    if (fdatasync(journal) != 0) stop("journal");
    if (record.len > 0) lattice_synced(node);
    free(record.at);
}

int main(int argc, char **words) {
    lattice_node node;
    uint32_t number;
    int64_t total;
    if (argc != 2 && argc != 3) return 2;
    take(words[1]);
    if (argc == 3 && strcmp(words[2], "new") == 0) {
        make();
        return 0;
    }
    unsigned long by = argc == 3 ? strtoul(words[2], NULL, 10) : 0;
    int journal = start(&node);
    errno = 0;
    if (lattice_add(&node, VISITS, LATTICE_COUNTER) != LATTICE_OK) stop("a counter");
    if (by > UINT32_MAX) stop(words[2]);
    if (argc == 3 && lattice_inc(&node, VISITS, (uint32_t)by, &number) != LATTICE_OK) stop(words[2]);
    keep(&node, journal);
    if (lattice_total(&node, VISITS, &total) != LATTICE_OK) stop("the total");
    printf("%lld\n", (long long)total);
    lattice_node_free(node);
    return 0;
}
