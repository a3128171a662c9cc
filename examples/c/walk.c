/* Loads a Dis module and walks it: from its entry to the end, then from its entry again for each name that is raised.
 * walk FILE [NAME ..] */
#include "dis.h"

#include <errno.h>
#include <inttypes.h>
#include <stdio.h>
#include <stdlib.h>
#include <string.h>

/* How many numbers a module, a state and an answer have; and the longest file that is not refused. */
enum { MODULE = 16, STATE = 3, ANSWER = 4, LIMIT = 16777216 };

/* What is lent to the calls. One byte over the limit is room enough to see that a file is too long. */
struct lent {
    uint8_t file[LIMIT + 1];
    size_t file_len;
    int32_t *words;
    size_t words_len;
    int32_t module[MODULE];
    int32_t state[STATE];
    int64_t answer[ANSWER];
};

static _Noreturn void fail(const char *path, const char *what) {
    fprintf(stderr, "walk: %s: %s\n", path, what);
    exit(2);
}

static void *memory(const char *path, size_t size) {
    void *p = malloc(size ? size : 1); /* not null, even for an empty slice */
    if (!p) fail(path, "not enough memory");
    return p;
}

static void read_file(const char *path, struct lent *l) {
    FILE *f = fopen(path, "rb");
    if (!f) fail(path, strerror(errno));
    l->file_len = fread(l->file, 1, sizeof l->file, f);
    if (ferror(f)) fail(path, strerror(errno));
    fclose(f);
}

/* A call returns -1 only where module, state or answer is too short, and these are not. */
static void expect_done(int32_t returned) {
    if (returned != 0) abort();
}

static void stop_if_refused(const char *path, const struct lent *l) {
    if (l->answer[0] == 0) return;
    fprintf(stderr, "walk: %s: refused: number %" PRId64 ", section %" PRId64 ", place %" PRId64 ", detail %" PRId64 "\n",
            path, l->answer[0], l->answer[1], l->answer[2], l->answer[3]);
    exit(1);
}

/* First without any words: refusal 20 tells how many are needed. */
static void load(const char *path, struct lent *l) {
    l->words_len = 0;
    l->words = memory(path, 0);
    expect_done(dis_load(l->file, l->file_len, l->words, l->words_len, l->module, MODULE, l->answer, ANSWER));
    if (l->answer[0] == 20) {
        l->words_len = (size_t)l->answer[3];
        free(l->words);
        l->words = memory(path, l->words_len * sizeof *l->words);
        expect_done(dis_load(l->file, l->file_len, l->words, l->words_len, l->module, MODULE, l->answer, ANSWER));
    }
    stop_if_refused(path, l);
}

static void print_state(const char *event, const int32_t *state) {
    static const char *const reasons[] = {"", "no entry", "no code", "end of code", "uncaught", "no catch-all"};
    printf("%s: ", event);
    switch (state[0]) {
    case 0: printf("idle\n"); break;
    case 1:
        printf("at pc %" PRId32, state[1]);
        if (state[2] == -1) printf(", no frame type\n");
        else if (state[2] == -2) printf(", the default frame\n");
        else printf(", frame type %" PRId32 "\n", state[2]);
        break;
    case 2: printf("stopped, %s\n", reasons[state[1]]); break;
    default: printf("broken\n"); break;
    }
}

static void entry(const char *path, struct lent *l) {
    expect_done(dis_entry(l->module, MODULE, l->file, l->file_len, l->words, l->words_len, l->state, STATE, l->answer, ANSWER));
    stop_if_refused(path, l);
    print_state("entry", l->state);
}

static void next(const char *path, struct lent *l) {
    expect_done(dis_next(l->module, MODULE, l->file, l->file_len, l->words, l->words_len, l->state, STATE, l->answer, ANSWER));
    stop_if_refused(path, l);
    print_state("next", l->state);
}

static void raise_name(const char *path, struct lent *l, const char *name) {
    expect_done(dis_raise(l->module, MODULE, l->file, l->file_len, l->words, l->words_len, (const uint8_t *)name, strlen(name),
                          l->state, STATE, l->answer, ANSWER));
    stop_if_refused(path, l);
    printf("raise ");
    print_state(name, l->state);
}

int main(int argc, char **argv) {
    if (argc < 2) {
        fprintf(stderr, "usage: walk FILE [NAME ..]\n");
        return 2;
    }
    const char *path = argv[1];
    static struct lent l; /* all zero: the state is idle */
    read_file(path, &l);
    load(path, &l);
    printf("%s: %" PRId64 " of %zu bytes used, %" PRId64 " words\n", path, l.answer[1], l.file_len, l.answer[2]);
    entry(path, &l);
    while (l.state[0] == 1) next(path, &l);
    for (int i = 2; i < argc; i++) {
        entry(path, &l);
        raise_name(path, &l, argv[i]);
    }
    free(l.words);
    return 0;
}
