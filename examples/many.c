/* Several models side by side, run in turns of fuel; before each turn a model is copied. Then each model goes back to the
 * copy from before its last turn and makes that part again in two other ways, and the verdicts are compared.
 *
 *   make library
 *   cc -O2 -Iinclude examples/many.c target/staticlib/libframed_c.a -o target/many
 *   target/many examples/drive.framed examples/drive_repaired.framed
 *
 * Exit status: 0 each model is done and the verdicts are the same, 1 a model does not load, 2 bad usage, 3 else.
 */
#include "framed.h"
#include <stdio.h>
#include <string.h>

#define MODELS 8
#define TURN 500  /* steps in a turn */
#define TURNS 200 /* turns that a model may take */

/* what a run showed, and how it stopped */
struct part {
    char out[TURN * FRAMED_LINE_BYTES]; /* so long that no run of TURN steps fills it */
    size_t bytes;
    uint32_t steps, stop;
};

static struct model {
    const char *name;
    struct framed_memories now, saved; /* saved: before the last turn */
    struct part last;                  /* of the last turn */
    unsigned long steps;
} models[MODELS];

static int load(struct model *m) {
    static uint8_t source[FRAMED_SOURCE_BYTES + 1];
    FILE *file = fopen(m->name, "rb");
    if (!file) {
        perror(m->name);
        return 0;
    }
    size_t length = fread(source, 1, sizeof source, file);
    int unread = ferror(file);
    if (unread)
        perror(m->name);
    fclose(file);
    if (unread)
        return 0;
    /* room for 40 frames and 8 made texts, which are collected as they die */
    uint32_t refused = framed_memories_load(&m->now, source, length, 40, 8);
    if (refused)
        fprintf(stderr, "%s: refused %u: %s\n", m->name, (unsigned)refused, framed_message(refused));
    return !refused;
}

/* A turn in runs of at most `fuel` steps, with a collect after each where asked. */
static void take_turn(struct framed_memories *m, struct part *p, uint32_t fuel, int collect) {
    p->bytes = 0;
    p->steps = 0;
    do {
        uint32_t steps = 0, frames, texts, left = TURN - p->steps;
        size_t bytes = 0;
        if (fuel > left)
            fuel = left;
        p->stop = framed_memories_run(m, fuel, p->out + p->bytes, sizeof p->out - p->bytes, &steps, &bytes);
        p->bytes += bytes;
        p->steps += steps;
        if (collect)
            framed_memories_collect(m, &frames, &texts);
    } while (p->stop == FRAMED_FUEL && p->steps < TURN);
}

static int same(const struct part *a, const struct part *b) {
    return a->stop == b->stop && a->steps == b->steps && a->bytes == b->bytes && !memcmp(a->out, b->out, a->bytes);
}

/* The last turn twice more, each time from the saved copy. */
static int again(struct model *m) {
    static struct part sevens, ones;
    m->now = m->saved;
    take_turn(&m->now, &sevens, 7, 0);
    m->now = m->saved;
    take_turn(&m->now, &ones, 1, 1);
    int alike = same(&sevens, &m->last) && same(&ones, &m->last);
    printf("%s: the last %u steps again, 7 at a time, and one by one with collects: %s\n", m->name,
           (unsigned)m->last.steps, alike ? "the same verdict" : "ANOTHER VERDICT");
    return alike;
}

int main(int argc, char **argv) {
    int count = argc - 1, running = count, good = 1;
    if (count < 1 || count > MODELS) {
        fprintf(stderr, "usage: many MODEL.. (at most %d)\n", MODELS);
        return 2;
    }
    for (int i = 0; i < count; i++) {
        models[i].name = argv[1 + i];
        models[i].last.stop = FRAMED_FUEL;
        if (!load(&models[i]))
            return 1;
    }

    for (int turn = 1; turn <= TURNS && running; turn++)
        for (int i = 0; i < count; i++) {
            struct model *m = &models[i];
            if (m->last.stop != FRAMED_FUEL)
                continue;
            m->saved = m->now; /* a copy of the four memories is the whole machine */
            take_turn(&m->now, &m->last, TURN, 0);
            m->steps += m->last.steps;
            printf("turn %d of %s: %u steps, %s\n", turn, m->name, (unsigned)m->last.steps,
                   framed_stop_message(m->last.stop));
            fwrite(m->last.out, 1, m->last.bytes, stdout);
            running -= m->last.stop != FRAMED_FUEL;
        }

    for (int i = 0; i < count; i++) {
        struct model *m = &models[i];
        if (m->last.stop >= FRAMED_NO_RULE)
            printf("%s: end %u after %lu steps: %s\n", m->name, (unsigned)m->last.stop, m->steps,
                   framed_message(m->last.stop));
        else
            printf("%s: %s after %lu steps\n", m->name, framed_stop_message(m->last.stop), m->steps);
        good &= m->last.stop == FRAMED_DONE;
        good &= again(m);
    }
    return good ? 0 : 3;
}
