/* The frame machine for C: programs in the Framed language on memory that the caller lends.
 *
 * The library is proved: every call answers for any contents and lengths of what it is lent, within its fuel, and writes
 * nothing outside it. It has no state of its own, allocates nothing and makes no system call, so that threads may call it
 * at once, each over memories of its own. docs/LAYOUT.md says what each word of the memories means; a caller needs none of
 * that.
 *
 * Build:  make library               (target/staticlib/libframed_c.a, x86-64 Linux)
 *         cc -Iinclude model.c target/staticlib/libframed_c.a
 *
 * Most callers want `struct framed_memories` and the calls framed_memories_.. at the end. The seven calls that these stand
 * on take each memory as a pointer and a length. A pointer to an array of length 0 may be anything but null. Arrays and
 * numbers that a call writes must not overlap any other argument.
 *
 * The library needs memcpy and memset, from the C library or the caller's own, and nothing else. The stack that a call
 * takes was measured on the library as built, arguments and return address included. This header is C99 and C++11.
 */
#ifndef FRAMED_H
#define FRAMED_H

#include <stddef.h>
#include <stdint.h>

#ifdef __cplusplus
extern "C" {
#endif

#define FRAMED_VERSION_MAJOR 0
#define FRAMED_VERSION_MINOR 6
#define FRAMED_VERSION_PATCH 0
#define FRAMED_VERSION "0.6.0"

/* The lengths that the four memories must have, in words and bytes. */
#define FRAMED_PROGRAM_WORDS 16384
#define FRAMED_HEAP_WORDS 16384
#define FRAMED_LITERAL_BYTES 8192
#define FRAMED_TEXT_BYTES 16384

/* Limits of a source and of a run. */
#define FRAMED_SOURCE_BYTES 16384 /* the longest source */
#define FRAMED_MIN_FRAMES 3       /* F, the frame limit given to load */
#define FRAMED_MAX_FRAMES 256
#define FRAMED_MAX_TEXTS 256      /* T, the made text limit given to load, from 0 on */
#define FRAMED_STRING_BYTES 64    /* the longest text */
#define FRAMED_LINE_BYTES 65      /* the longest line of a show, with its byte 10 */
#define FRAMED_TEXT_BUFFER 32767  /* a buffer of this length is never too short for write, where load made the memories */
#define FRAMED_MAKERS 513         /* the makers that a frame may have: loading, 0, and 512 instructions, from 1 on */

/* What load answers. A refused load changes nothing. */
enum {
    FRAMED_LOADED = 0,
    FRAMED_MEMORY_LENGTH = 1,  /* a memory has another length */
    FRAMED_LIMIT_RANGE = 2,    /* F or T is outside its range */
    FRAMED_SOURCE_LENGTH = 3,  /* the source is longer than 16,384 bytes */
    FRAMED_NO_TOKEN = 4,       /* bytes that form no token */
    FRAMED_NESTING = 5,        /* nesting above 16 */
    FRAMED_NOT_ONE_FRAME = 6,  /* the tokens are not one frame */
    FRAMED_OUTSIDE_CODE = 7,   /* path, operator or `!` outside code */
    FRAMED_BAD_FRAME = 8,      /* a frame with a name twice or more than 16 slots */
    FRAMED_COUNT_LIMIT = 9,    /* a count above its limit */
    FRAMED_ABOVE_PROGRAM = 10, /* `^` above the program frame */
    FRAMED_NO_START = 11,      /* no Main frame with a code in start */
    FRAMED_WRITTEN_FRAMES = 12 /* F or more frames are written outside code */
};

/* What every other call answers to memories that are not whole: nothing is changed. */
#define FRAMED_NOT_WHOLE 20

/* Why a run stopped (or FRAMED_NOT_WHOLE). */
enum {
    FRAMED_DONE = 0,           /* no instruction is left */
    FRAMED_FUEL = 1,           /* as many steps as the fuel were made */
    FRAMED_OUTPUT = 2,         /* a show's line is longer than the space left; nothing changes, a larger buffer goes on */
    FRAMED_NO_RULE = 31,       /* no rule applies to the next instruction */
    FRAMED_DIVISOR_ZERO = 32,
    FRAMED_INTEGER_RANGE = 33, /* the exact result does not fit 32 bits */
    FRAMED_TEXT_LENGTH = 34,   /* a joined text would have more than 64 bytes, of which a frame gives 5 and a code 4 */
    FRAMED_SLOT_LIMIT = 35,    /* a frame would have a 17th slot */
    FRAMED_FRAMES_FULL = 36,   /* the frames reached, plus those that the instruction makes, exceed F */
    FRAMED_TEXTS_FULL = 37     /* the same of made texts and T */
};

/* What look finds (or FRAMED_NOT_WHOLE, FRAMED_NOT_PATH, FRAMED_UNDEFINED). */
enum {
    FRAMED_INTEGER = 1,
    FRAMED_TEXT = 2,
    FRAMED_CODE = 3,
    FRAMED_FRAME = 4,
    FRAMED_NOT_PATH = 21, /* the text is not such a path */
    FRAMED_UNDEFINED = 22 /* the path leads nowhere */
};

/* What write answers (or FRAMED_NOT_WHOLE). A refused write changes nothing. */
enum {
    FRAMED_WRITTEN = 0,
    FRAMED_SHORT_BUFFER = 23 /* the buffer is shorter than the text */
};

/* Loads a source with the limits F (frames) and T (texts): the memories then hold its program at its start. What they held
 * before does not matter. Answers FRAMED_LOADED, or the lowest number from 1 to 12 that holds; then nothing is written.
 * The place of a refusal in the source is what the command `framed check MODEL` tells.
 * Stack: at most 161,392 bytes, at the deepest nesting; a level of code takes 1,264 of them. */
uint32_t framed_load(const uint8_t *source, size_t source_length, uint32_t frames, uint32_t texts,
                     uint32_t *program, size_t program_length, uint32_t *heap, size_t heap_length,
                     uint8_t *literals, size_t literals_length, uint8_t *text_bytes, size_t text_length);

/* Runs from where the memories stand, for at most `fuel` steps. Shows are written to the front of `out`, a line each.
 * Answers why it stopped; *steps and *bytes become the steps made and the bytes written. After an end from 31 to 37 the
 * memories keep it, and every later run answers it again. With FRAMED_NOT_WHOLE nothing is written, *steps and *bytes
 * included.
 * Stack: at most 16,064 bytes over program words that load wrote, 189,792 over any memories, which may nest frames and code
 * deeper than a source. */
uint32_t framed_run(const uint32_t *program, size_t program_length, uint32_t *heap, size_t heap_length,
                    const uint8_t *literals, size_t literals_length, uint8_t *text_bytes, size_t text_length,
                    uint32_t fuel, uint8_t *out, size_t out_length, uint32_t *steps, size_t *bytes);

/* Takes out of use what self and program do not reach. A run does so by itself where it needs room: a call is for a caller
 * who wants the totals. Answers 0, and *frames and *texts become what is reached; or FRAMED_NOT_WHOLE with nothing
 * written. Stack: at most 15,672 bytes. */
uint32_t framed_collect(const uint32_t *program, size_t program_length, uint32_t *heap, size_t heap_length,
                        const uint8_t *literals, size_t literals_length, const uint8_t *text_bytes, size_t text_length,
                        uint32_t *frames, uint32_t *texts);

/* What stands at the end of a path, as `self.line` or `^.Main.start` (`^` is the program frame). Answers the kind. For an
 * integer *number becomes it, for a frame *maker the number of the instruction that made it; else they stay. Instructions
 * are counted from 1 by where each begins in the source, those in code literals too; frames that were made at loading have
 * the maker 0. Stack: at most 15,192 bytes. */
uint32_t framed_look(const uint32_t *program, size_t program_length, const uint32_t *heap, size_t heap_length,
                     const uint8_t *literals, size_t literals_length, const uint8_t *text_bytes, size_t text_length,
                     const uint8_t *path, size_t path_length, int32_t *number, uint32_t *maker);

/* The bytes of the text at the end of a path: answers how many there are (at most 64), and writes them to the front of
 * `out`, as far as they fit. For another kind or a refusal there are none, as for an empty text: framed_look tells them
 * apart. Stack: at most 15,208 bytes. */
size_t framed_look_text(const uint32_t *program, size_t program_length, const uint32_t *heap, size_t heap_length,
                        const uint8_t *literals, size_t literals_length, const uint8_t *text_bytes, size_t text_length,
                        const uint8_t *path, size_t path_length, uint8_t *out, size_t out_length);

/* What made the frames that self and program reach, for a model that has no room (FRAMED_FRAMES_FULL): counts[n] becomes how
 * many of them instruction n made, counts[0] how many were made at loading. All FRAMED_MAKERS counts are written, and the
 * memories stay. Answers 0; or FRAMED_NOT_WHOLE with nothing written. The place of instruction n in the source is what the
 * command `framed where MODEL` tells. Stack: at most 15,136 bytes. */
uint32_t framed_makers(const uint32_t *program, size_t program_length, const uint32_t *heap, size_t heap_length,
                       const uint8_t *literals, size_t literals_length, const uint8_t *text_bytes, size_t text_length,
                       uint32_t counts[FRAMED_MAKERS]);

/* Writes the program as Framed text to the front of `out`, without a byte 0 or 10 at its end, and *length becomes the
 * length of the text. Nothing behind it is written. Loaded with the same F and T, a text of at most FRAMED_SOURCE_BYTES
 * bytes leaves the memories word for word as the first load left them. No run and no collect changes the text. Answers
 * FRAMED_WRITTEN; with FRAMED_SHORT_BUFFER or FRAMED_NOT_WHOLE nothing is written, *length included. For memories that load
 * made, with any runs and collects since, FRAMED_TEXT_BUFFER bytes are enough; others may have a text of any length, of
 * which no more is looked at than the buffer is long.
 * Stack: at most 31,568 bytes over program words that load wrote, 184,664 over any memories, which may nest frames and code
 * deeper than a source. */
uint32_t framed_write(const uint32_t *program, size_t program_length, const uint32_t *heap, size_t heap_length,
                      const uint8_t *literals, size_t literals_length, const uint8_t *text_bytes, size_t text_length,
                      uint8_t *out, size_t out_length, size_t *length);

/* What a refusal or an end says, by its number: 1 to 12, 20 to 23, 31 to 37. What a run answers has the next one; what a look
 * finds (1 to 4) is no refusal and has none. */
static inline const char *framed_message(uint32_t number) {
    switch (number) {
    case 0: return "no refusal and no end";
    case 1: return "a memory has another length";
    case 2: return "F or T is outside its range";
    case 3: return "the source is longer than 16,384 bytes";
    case 4: return "bytes that form no token";
    case 5: return "nesting above 16";
    case 6: return "the tokens are not one frame";
    case 7: return "path, operator or `!` outside code";
    case 8: return "a frame with a name twice or more than 16 slots";
    case 9: return "a count above its limit";
    case 10: return "`^` above the program frame";
    case 11: return "no Main frame with a code in start";
    case 12: return "F or more frames are written outside code";
    case 20: return "the memories are not whole";
    case 21: return "not a path";
    case 22: return "the path leads nowhere";
    case 23: return "the buffer is shorter than the text";
    case 31: return "no rule applies";
    case 32: return "divisor 0";
    case 33: return "integer result out of range";
    case 34: return "joined text above 64 bytes";
    case 35: return "a 17th slot";
    case 36: return "no room for the frames that the instruction makes";
    case 37: return "no room for its made texts";
    default: return "no such number";
    }
}

/* What a run's stop says: 0, 1 and 2 have a meaning of their own there. */
static inline const char *framed_stop_message(uint32_t stop) {
    switch (stop) {
    case FRAMED_DONE: return "done";
    case FRAMED_FUEL: return "fuel";
    case FRAMED_OUTPUT: return "output";
    default: return framed_message(stop);
    }
}

/* One machine: the four memories, 155,648 bytes. Keep it static or on the heap rather than on a small stack.
 *
 * Copying. An assignment or memcpy copies a machine, and the copy runs on by itself. A program is the program words and
 * the literal bytes, which load alone writes, with F and T among them. A state is the heap words and the text bytes under
 * their own program: to come back to it, put these two back over the same program. Over another program, or the same one
 * with other limits, they may be refused (20) or run as a state of that one: keep all four together.
 *
 * Comparing. Load writes all four memories, 0 where it has nothing to say. So after two loads the program words and the
 * literal bytes are equal exactly where program, F and T are the same; spaces and comments of a source do not count. Equal
 * heap words and text bytes over equal programs are the same state. The same state may have other words: where collects
 * came at other times, frames and texts have other numbers, and what is out of use keeps what it held. In program words
 * and literal bytes that load did not write, what is never looked at may differ too (docs/LAYOUT.md lists it). */
struct framed_memories {
    uint32_t program[FRAMED_PROGRAM_WORDS];
    uint32_t heap[FRAMED_HEAP_WORDS];
    uint8_t literals[FRAMED_LITERAL_BYTES];
    uint8_t texts[FRAMED_TEXT_BYTES];
};

/* framed_load into the memories, whatever they held. */
static inline uint32_t framed_memories_load(struct framed_memories *m, const void *source, size_t length,
                                            uint32_t frames, uint32_t texts) {
    return framed_load((const uint8_t *)source, length, frames, texts, m->program, FRAMED_PROGRAM_WORDS, m->heap,
                       FRAMED_HEAP_WORDS, m->literals, FRAMED_LITERAL_BYTES, m->texts, FRAMED_TEXT_BYTES);
}

/* framed_run. */
static inline uint32_t framed_memories_run(struct framed_memories *m, uint32_t fuel, void *out, size_t out_length,
                                           uint32_t *steps, size_t *bytes) {
    return framed_run(m->program, FRAMED_PROGRAM_WORDS, m->heap, FRAMED_HEAP_WORDS, m->literals, FRAMED_LITERAL_BYTES,
                      m->texts, FRAMED_TEXT_BYTES, fuel, (uint8_t *)out, out_length, steps, bytes);
}

/* framed_collect. */
static inline uint32_t framed_memories_collect(struct framed_memories *m, uint32_t *frames, uint32_t *texts) {
    return framed_collect(m->program, FRAMED_PROGRAM_WORDS, m->heap, FRAMED_HEAP_WORDS, m->literals,
                          FRAMED_LITERAL_BYTES, m->texts, FRAMED_TEXT_BYTES, frames, texts);
}

/* The length of a path that is a C string. */
static inline size_t framed_path_length(const char *text) {
    size_t length = 0;
    while (text[length])
        length++;
    return length;
}

/* framed_look, with the path as a C string. */
static inline uint32_t framed_memories_look(const struct framed_memories *m, const char *path, int32_t *number,
                                            uint32_t *maker) {
    return framed_look(m->program, FRAMED_PROGRAM_WORDS, m->heap, FRAMED_HEAP_WORDS, m->literals, FRAMED_LITERAL_BYTES,
                       m->texts, FRAMED_TEXT_BYTES, (const uint8_t *)path, framed_path_length(path), number, maker);
}

/* framed_look_text, with the path as a C string. What it writes to `out` has no byte 0 at its end. */
static inline size_t framed_memories_look_text(const struct framed_memories *m, const char *path, void *out,
                                               size_t out_length) {
    return framed_look_text(m->program, FRAMED_PROGRAM_WORDS, m->heap, FRAMED_HEAP_WORDS, m->literals,
                            FRAMED_LITERAL_BYTES, m->texts, FRAMED_TEXT_BYTES, (const uint8_t *)path,
                            framed_path_length(path), (uint8_t *)out, out_length);
}

/* framed_makers. */
static inline uint32_t framed_memories_makers(const struct framed_memories *m, uint32_t counts[FRAMED_MAKERS]) {
    return framed_makers(m->program, FRAMED_PROGRAM_WORDS, m->heap, FRAMED_HEAP_WORDS, m->literals,
                         FRAMED_LITERAL_BYTES, m->texts, FRAMED_TEXT_BYTES, counts);
}

/* framed_write. What it writes to `out` has no byte 0 at its end. */
static inline uint32_t framed_memories_write(const struct framed_memories *m, void *out, size_t out_length,
                                             size_t *length) {
    return framed_write(m->program, FRAMED_PROGRAM_WORDS, m->heap, FRAMED_HEAP_WORDS, m->literals, FRAMED_LITERAL_BYTES,
                        m->texts, FRAMED_TEXT_BYTES, (uint8_t *)out, out_length, length);
}

#ifdef __cplusplus
}
#endif

#endif
