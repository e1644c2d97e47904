/* Loads a model from a file, runs it in slices of fuel, collects between them, and looks at its verdict. Where the frames of
 * the model have no room, it says which instructions made them.
 *
 *   make library
 *   cc -O2 -Iinclude examples/embed.c target/staticlib/libframed_c.a -o target/embed
 *   target/embed examples/drive.framed self.faults
 *
 * Exit status: 0 the model is done, 1 it does not load, 2 bad usage, 3 it ends by a number or does not end.
 */
#include "framed.h"
#include <stdio.h>

/* one machine is its four memories */
static struct framed_memories model;

static int load(const char *name) {
    static uint8_t source[FRAMED_SOURCE_BYTES + 1]; /* one byte more, so that a longer file is refused and not cut */
    FILE *file = fopen(name, "rb");
    if (!file) {
        perror(name);
        return 0;
    }
    size_t length = fread(source, 1, sizeof source, file);
    int unread = ferror(file);
    if (unread)
        perror(name);
    fclose(file);
    if (unread)
        return 0;
    /* 40 frames and 8 made texts are enough for this model, as dead ones are collected */
    uint32_t refused = framed_memories_load(&model, source, length, 40, 8);
    if (refused)
        fprintf(stderr, "%s: refused %u: %s\n", name, (unsigned)refused, framed_message(refused));
    return !refused;
}

static void look(const char *path) {
    int32_t number = 0;
    uint32_t maker = 0;
    char text[FRAMED_STRING_BYTES + 1];
    uint32_t kind = framed_memories_look(&model, path, &number, &maker);
    switch (kind) {
    case FRAMED_INTEGER:
        printf("%s is %d\n", path, (int)number);
        break;
    case FRAMED_TEXT:
        text[framed_memories_look_text(&model, path, text, sizeof text)] = 0;
        printf("%s is \"%s\"\n", path, text);
        break;
    case FRAMED_CODE:
        printf("%s is a code\n", path);
        break;
    case FRAMED_FRAME:
        if (maker)
            printf("%s is a frame made by instruction %u\n", path, (unsigned)maker);
        else
            printf("%s is a frame made at loading\n", path);
        break;
    default:
        printf("%s: refused %u: %s\n", path, (unsigned)kind, framed_message(kind));
    }
}

/* How many of the frames that are reached each instruction made. */
static void makers(void) {
    uint32_t counts[FRAMED_MAKERS];
    framed_memories_makers(&model, counts);
    for (unsigned n = 1; n < FRAMED_MAKERS; n++)
        if (counts[n])
            printf("frames made by instruction %u: %u\n", n, (unsigned)counts[n]);
    printf("frames made at loading: %u\n", (unsigned)counts[0]);
}

int main(int argc, char **argv) {
    if (argc < 2) {
        fprintf(stderr, "usage: embed MODEL [PATH..]\n");
        return 2;
    }
    if (!load(argv[1]))
        return 1;

    uint32_t stop, slices = 0;
    unsigned long total = 0;
    do {
        uint32_t steps = 0, frames = 0, texts = 0;
        size_t bytes = 0;
        char out[1024];
        stop = framed_memories_run(&model, 500, out, sizeof out, &steps, &bytes);
        fwrite(out, 1, bytes, stdout);
        total += steps;
        slices += 1;
        framed_memories_collect(&model, &frames, &texts);
        printf("slice %u: %u steps, %u frames and %u texts reached\n", (unsigned)slices, (unsigned)steps,
               (unsigned)frames, (unsigned)texts);
        /* each slice has an empty buffer that is longer than any line, so it goes on after FRAMED_OUTPUT too */
    } while ((stop == FRAMED_FUEL || stop == FRAMED_OUTPUT) && slices < 1000);

    if (stop >= FRAMED_NO_RULE)
        printf("end %u after %lu steps: %s\n", (unsigned)stop, total, framed_message(stop));
    else
        printf("%s after %lu steps\n", framed_stop_message(stop), total);
    if (stop == FRAMED_FRAMES_FULL)
        makers();
    for (int i = 2; i < argc; i++)
        look(argv[i]);
    return stop == FRAMED_DONE ? 0 : 3;
}
