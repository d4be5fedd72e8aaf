"""The C program that plays calls as they were written down, and holds what they answer against what is written."""
from __future__ import annotations

from generating.table import Call, Parameter, Table
from generating.writing import SIZES

from .playing import FILL, is_place

HEAD = '''\
/* Plays calls that stand on the input, each behind its length, and stops where one answers something else. Each buffer
 * is an allocation of its very size. */
#include "lattice.h"

#include <stdio.h>
#include <stdlib.h>
#include <string.h>

enum { FILL = @FILL, SLOTS = 65536, OUTS = 8 };

static lattice_node nodes[SLOTS];
static unsigned char *frame;
static size_t frame_room, frame_len, taken;
static unsigned long long calls;
static const char *call_name = "the first";

/* Where a result goes, and what has to stand there: so much of it, and the filling behind that. */
struct out {
    const char *name;
    unsigned char *bytes;
    size_t len;
    const unsigned char *wanted;
    size_t written;
};
static struct out outs[OUTS];
static size_t outs_len;
static void *given[OUTS];
static size_t given_len;

_Noreturn static void stop(const char *what) {
    fprintf(stderr, "call %llu, %s: %s\\n", calls, call_name, what);
    exit(1);
}

static void *room_for(size_t size) {
    void *bytes = malloc(size);
    if (bytes == NULL) {
        stop("there is no memory for it");
    }
    return bytes;
}

static const unsigned char *take(size_t len) {
    if (len > frame_len - taken) {
        stop("what is written of it is too short");
    }
    taken += len;
    return frame + taken - len;
}

static unsigned long long taken_number(size_t len) {
    unsigned long long value = 0;
    memcpy(&value, take(len), len);
    return value;
}

static lattice_node *taken_node(void) {
    return &nodes[taken_number(2)];
}

static lattice_node taken_handle(void) {
    return *taken_node();
}

/* A place or a buffer, which is filled. */
static void *made_place(const char *name, size_t len, size_t written) {
    struct out *it = &outs[outs_len++];
    *it = (struct out){.name = name, .bytes = room_for(len), .len = len, .wanted = take(written), .written = written};
    memset(it->bytes, FILL, len);
    return it->bytes;
}

static void *made_buffer(const char *name, size_t size, size_t *room) {
    *room = taken_number(4);
    size_t written = taken_number(4);
    return made_place(name, *room * size, written * size);
}

static const void *taken_buffer(size_t size, size_t *len) {
    *len = taken_number(4);
    void *bytes = room_for(*len * size);
    memcpy(bytes, take(*len * size), *len * size);
    given[given_len++] = bytes;
    return bytes;
}

static void check_out(const struct out *it) {
    if (memcmp(it->bytes, it->wanted, it->written) != 0) {
        stop(it->name);
    }
    for (size_t at = it->written; at < it->len; at++) {
        if (it->bytes[at] != FILL) {
            stop("it writes behind what it says");
        }
    }
}

static void check(unsigned long long result, size_t size) {
    if (size > 0 && result != taken_number(size)) {
        stop("its result");
    }
    if (taken != frame_len) {
        stop("what is written of it is too long");
    }
    for (size_t at = 0; at < outs_len; at++) {
        check_out(&outs[at]);
        free(outs[at].bytes);
    }
    for (size_t at = 0; at < given_len; at++) {
        free(given[at]);
    }
}
'''
TAIL = '''
static int read_frame(void) {
    unsigned char head[4];
    size_t read = fread(head, 1, sizeof head, stdin);
    if (read == 0) {
        return 0;
    }
    frame_len = head[0] | (size_t)head[1] << 8 | (size_t)head[2] << 16 | (size_t)head[3] << 24;
    if (frame_len > frame_room) {
        free(frame);
        frame_room = 2 * frame_len;
        frame = room_for(frame_room);
    }
    if (read != sizeof head || fread(frame, 1, frame_len, stdin) != frame_len) {
        stop("the input ends in it");
    }
    taken = outs_len = given_len = 0;
    return 1;
}

int main(void) {
    while (read_frame()) {
        calls++;
        size_t which = taken_number(1);
        if (which >= sizeof plays / sizeof *plays) {
            stop("there is no such call");
        }
        plays[which]();
    }
    free(frame);
    printf("%llu\\n", calls);
    return 0;
}
'''


def typed(base: str) -> str:
    """A type of the table in C."""
    return {"usize": "size_t", "i64": "int64_t"}.get(base) or (
        f"uint{base[1:]}_t" if base in SIZES else f"lattice_{base}"
    )


def taken(parameter: Parameter) -> list[str]:
    """What takes a parameter from the frame."""
    name, kind = parameter.name, parameter.type
    if kind.base == "node":
        given = kind.way == "given"
        return [f"lattice_node {name} = taken_handle();" if given else f"lattice_node *{name} = taken_node();"]
    base = typed(kind.base)
    if is_place(parameter):
        size = f"sizeof({base}{kind.many})"
        return [f'{base} *{name} = made_place("{name}", {size}, {size});']
    if kind.many:
        if kind.way == "out":
            return [f"size_t {name}_len;", f'{base} *{name} = made_buffer("{name}", sizeof({base}), &{name}_len);']
        return [f"size_t {name}_len;", f"const {base} *{name} = taken_buffer(sizeof({base}), &{name}_len);"]
    return [f"{base} {name} = ({base})taken_number(8);"]


def played(call: Call) -> list[str]:
    """The function that plays a call."""
    lines = [f"static void play_{call.name}(void) {{", f'    call_name = "{call.name}";']
    words = []
    for parameter in call.parameters:
        lines += [f"    {it}" for it in taken(parameter)]
        words += [parameter.name, *([f"{parameter.name}_len"] if parameter.type.many == "[]" else [])]
    made = f"lattice_{call.name}({', '.join(words)})"
    lines += [f"    check({made}, 8);"] if call.result else [f"    {made};", "    check(0, 0);"]
    return ["", *lines, "}"]


def source(table: Table) -> str:
    """The program's text."""
    lines = [line for call in table.calls for line in played(call)]
    names = [f"    play_{call.name}," for call in table.calls]
    lines += ["", "static void (*const plays[])(void) = {", *names, "};"]
    return HEAD.replace("@FILL", str(FILL)) + "\n".join([*lines, ""]) + TAIL
