/* Loads a model, runs it for a while and writes it as Framed text: the program as it was loaded, in the one form that all
 * models of the same program have. Then the text is loaded, and the memories are compared with those of the first load.
 *
 *   make library
 *   cc -O2 -Iinclude examples/tidy.c target/staticlib/libframed_c.a -o target/tidy
 *   target/tidy examples/drive.framed
 *
 * Exit status: 0 the text is the same model, 1 the model does not load, 2 bad usage, 3 the text does not load.
 */
#include "framed.h"
#include <stdio.h>
#include <string.h>

#define FRAMES 256
#define TEXTS 256

static struct framed_memories model, start, again;

static int load(const char *name) {
    static uint8_t source[FRAMED_SOURCE_BYTES + 1]; /* one byte more, so that a longer file is refused and not cut */
    FILE *file = fopen(name, "rb");
    if (!file) {
        perror(name);
        return 0;
    }
    size_t length = fread(source, 1, sizeof source, file);
    int unread = ferror(file);
    if (unread)
        perror(name);
    fclose(file);
    if (unread)
        return 0;
    uint32_t refused = framed_memories_load(&model, source, length, FRAMES, TEXTS);
    if (refused)
        fprintf(stderr, "%s: refused %u: %s\n", name, (unsigned)refused, framed_message(refused));
    return !refused;
}

int main(int argc, char **argv) {
    static char text[FRAMED_TEXT_BUFFER]; /* enough for every model */
    static char out[4096];
    size_t length = 0, bytes = 0;
    uint32_t steps = 0, refused;
    if (argc != 2) {
        fprintf(stderr, "usage: tidy MODEL\n");
        return 2;
    }
    if (!load(argv[1]))
        return 1;

    start = model;
    framed_memories_run(&model, 500, out, sizeof out, &steps, &bytes);
    framed_memories_write(&model, text, sizeof text, &length); /* not refused: the memories are load's */
    fwrite(text, 1, length, stdout);
    putchar('\n');

    refused = framed_memories_load(&again, text, length, FRAMES, TEXTS);
    if (refused) { /* 3: the text may be longer than a source */
        fprintf(stderr, "the text, %lu bytes: refused %u: %s\n", (unsigned long)length, (unsigned)refused,
                framed_message(refused));
        return 3;
    }
    fprintf(stderr, "written after %u steps; loaded again, the text is %s model\n", (unsigned)steps,
            memcmp(&again, &start, sizeof again) ? "ANOTHER" : "the same");
    return memcmp(&again, &start, sizeof again) ? 3 : 0;
}
