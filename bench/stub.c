// A stub that knows beforehand what a node of three writes for a submission of replica 0: it appends each
// line that a node keeps to a file, has it on the disk, and works nothing out; all that it says, also of how far
// it is, is that of a first update. So what it takes is the broker's, the pipes' and the disk's.
//
// usage: stub node --replicas 3 --own R --journal FOLDER
//        stub init .., which makes nothing: the file is made by the first start
#include <fcntl.h>
#include <stdio.h>
#include <stdlib.h>
#include <string.h>
#include <unistd.h>

static int own, journal, submitted, acknowledged;

static void keep(const char *line, size_t size) {
    if (write(journal, line, size) < 0 || fdatasync(journal))
        exit(1);
}

static void say(const char *line) {
    if (write(STDOUT_FILENO, line, strlen(line)) < 0)
        exit(1);
}

static void offer(void) {
    char line[128];
    acknowledged = 0;
    snprintf(line, sizeof line, "# r0 submitted 0.%d\n", ++submitted);
    say(line);
    for (int to = 0; to < 3; to++) {
        snprintf(line, sizeof line, "offer 3 0 %d 0 1 has 0 view 0 base 0;0.1 1 inc 1\n", to);
        say(line);
    }
}

static void acknowledge(void) {
    char line[64];
    snprintf(line, sizeof line, "yes 3 %d 0 0 1 has 1 view 0\n", own);
    say(line);
}

static void count(void) {
    if (++acknowledged != 2)
        return;
    say("# r0 learnt 0 1 1 0 0 0 0 0 0 0\n");
    say("# r0 view 1 0 0 0 0 0 0 0\n");
    say("tell 3 0 1 0 1 has 1 view 1 base 0;0.1 1 inc 1\n");
    say("tell 3 0 2 0 1 has 1 view 1 base 0;0.1 1 inc 1\n");
}

static void follow(void) {
    char line[64];
    snprintf(line, sizeof line, "# r%d view 1 0 0 0 0 0 0 0\n", own);
    say(line);
}

static void take(const char *line, size_t size) {
    static const struct {
        const char *form;
        void (*then)(void);
    } calls[] = {
        {"submit %d", offer},
        {"offer 3 0 %d", acknowledge},
        {"yes 3 %*d %d", count},
        {"tell 3 0 %d", follow},
    };
    for (int it = 0; it < 4; it++) {
        int to;
        if (sscanf(line, calls[it].form, &to) == 1 && to == own) {
            keep(line, size);
            calls[it].then();
        }
    }
}

int main(int argc, char **argv) {
    char *line = NULL, name[4096];
    size_t room = 0;
    ssize_t size;
    if (argc > 1 && !strcmp(argv[1], "init"))
        return 0;
    if (argc != 8)
        return 2;
    own = atoi(argv[5]);
    snprintf(name, sizeof name, "%s/lines", argv[7]);
    journal = open(name, O_CREAT | O_WRONLY | O_APPEND, 0600);
    while ((size = getline(&line, &room, stdin)) > 0)
        take(line, size);
    return 0;
}
