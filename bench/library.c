/* The library from C, for bench/library.py: calls come on standard input, and what came of each goes to standard output.
 *
 * Each piece of memory that a call is given ends where a page begins that cannot be touched, so a byte read or written past its end stops
 * the process; the bytes in front of the room are looked at afterwards. It is built with -fsanitize=address too, which looks for what is
 * freed twice and for what is never freed.
 *
 *   library             calls, each as seven numbers of 32 bits (which of the two, mode or caller, steps, three lengths and that of the
 *                       room), a fourth length, and the bytes: input, or text, policy, history and line
 *   library COUNT       the same, each COUNT times: the processor's microseconds of a call follow what came of it
 *   library COUNT N     the same by N threads at once; a thread that finds another answer ends the process with 1
 */
#define _GNU_SOURCE
#include "flow.h"

#include <pthread.h>
#include <stdio.h>
#include <stdlib.h>
#include <string.h>
#include <sys/mman.h>
#include <time.h>

enum { PAGE = 4096, FRONT = 64, MARK = 0xA5 };

typedef struct {
    uint8_t *pages, *bytes;
    size_t mapped, length;
} Piece;

/* Memory of that length, which ends where a page begins that cannot be touched. */
static Piece piece_of(size_t length) {
    size_t held = (length + FRONT + PAGE - 1) / PAGE * PAGE;
    Piece piece = {NULL, NULL, held + PAGE, length};
    piece.pages = mmap(NULL, piece.mapped, PROT_READ | PROT_WRITE, MAP_PRIVATE | MAP_ANONYMOUS, -1, 0);
    if (piece.pages == MAP_FAILED || mprotect(piece.pages + held, PAGE, PROT_NONE)) {
        perror("mmap");
        exit(2);
    }
    piece.bytes = piece.pages + held - length;
    memset(piece.bytes - FRONT, MARK, FRONT + length);
    return piece;
}

static void let_go(Piece piece) { munmap(piece.pages, piece.mapped); }

static int is_marked(const uint8_t *bytes, size_t length) {
    for (size_t place = 0; place < length; place++) {
        if (bytes[place] != MARK) {
            return 0;
        }
    }
    return 1;
}

typedef struct {
    uint32_t which, number, steps;
    Piece parts[4], room;
    size_t length;
    uint32_t status;
} Call;

static void make(Call *call) {
    Piece *part = call->parts;
    call->length = 77;
    call->status = call->which
        ? flow_step(part[0].bytes, part[0].length, part[1].bytes, part[1].length, part[2].bytes, part[2].length, call->number, part[3].bytes,
                    part[3].length, call->room.bytes, call->room.length, &call->length)
        : flow_answer(call->number, call->steps, part[0].bytes, part[0].length, call->room.bytes, call->room.length, &call->length);
}

/* What is promised of the room. */
static void look_at(const Call *call) {
    const Piece *room = &call->room;
    size_t written = call->status == FLOW_NO_ROOM ? 0 : call->length;
    if (!is_marked(room->bytes - FRONT, FRONT) || written > room->length || (call->status == FLOW_NO_ROOM && call->length <= room->length)
        || !is_marked(room->bytes + written, room->length - written)) {
        fprintf(stderr, "library: the room is not as it must be: status %u, length %zu of %zu\n", call->status, call->length, room->length);
        exit(1);
    }
}

typedef struct {
    const Call *first;
    long count;
} Work;

static void *work(void *given) {
    Work *todo = given;
    Call call = *todo->first;
    call.room = piece_of(call.room.length);
    for (long time = 0; time < todo->count; time++) {
        make(&call);
        if (call.status != todo->first->status || call.length != todo->first->length
            || memcmp(call.room.bytes, todo->first->room.bytes, call.room.length)) {
            fprintf(stderr, "library: a thread found another answer\n");
            exit(1);
        }
    }
    let_go(call.room);
    return NULL;
}

/* The time that the processor spent on this thread. */
static double seconds(void) {
    struct timespec now;
    clock_gettime(CLOCK_THREAD_CPUTIME_ID, &now);
    return (double)now.tv_sec + (double)now.tv_nsec / 1e9;
}

static int is_read(void *to, size_t length) { return fread(to, 1, length, stdin) == length; }

int main(int words, char **word) {
    long count = words > 1 ? atol(word[1]) : 0, threads = words > 2 ? atol(word[2]) : 0;
    uint32_t head[8];
    while (is_read(head, sizeof head)) {
        Call call = {.which = head[0], .number = head[1], .steps = head[2]};
        for (int part = 0; part < 4; part++) {
            call.parts[part] = piece_of(head[3 + part]);
        }
        for (int part = 0; part < 4; part++) {
            if (!is_read(call.parts[part].bytes, call.parts[part].length)) {
                return 2;
            }
        }
        call.room = piece_of(head[7]);
        make(&call);
        look_at(&call);
        double begun = seconds();
        for (long time = 0; time < count && !threads; time++) {
            make(&call);
        }
        float spent = count ? (float)((seconds() - begun) * 1e6 / (double)count) : 0;
        pthread_t crew[16];
        Work todo = {&call, count};
        for (long one = 0; one < threads && one < 16; one++) {
            pthread_create(&crew[one], NULL, work, &todo);
        }
        for (long one = 0; one < threads && one < 16; one++) {
            pthread_join(crew[one], NULL);
        }
        uint32_t length = (uint32_t)call.length, tail[2] = {call.status, length};
        fwrite(tail, sizeof tail, 1, stdout);
        fwrite(&spent, sizeof spent, 1, stdout);
        fwrite(call.room.bytes, 1, call.status == FLOW_NO_ROOM ? 0 : length, stdout);
        for (int part = 0; part < 4; part++) {
            let_go(call.parts[part]);
        }
        let_go(call.room);
    }
    return 0;
}
