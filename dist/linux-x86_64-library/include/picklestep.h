/* libpicklestep: shows what a Python pickle would import, call and build. It calls and imports nothing of it.
 *
 * Each function reads an input of `length` bytes and puts a text at the start of `out`, which has `room` bytes. The text is, byte for byte,
 * what the program prints for the same task; the proofs of the program hold for it, up to the bytes in `out`. A text is ASCII, and no NUL
 * byte ends it. Nothing else is read or written, nothing but sessions and each thread's limit of memory is kept between calls, and threads may
 * call at once.
 *
 * No pointer may be NULL, also where a length is 0, and `out` and `written` may not overlap each other or what is read. Nobody may change what
 * is read during a call. The proofs take these for granted.
 */
#ifndef PICKLESTEP_H
#define PICKLESTEP_H

#include <stdbool.h>
#include <stddef.h>
#include <stdint.h>

#ifdef __cplusplus
extern "C" {
#endif

/* What a function answers. Where it is not PICKLESTEP_DONE, `out` stays as it was; where it is, what is behind the text does. */
enum {
    PICKLESTEP_DONE = 0,          /* the whole text is at the start of `out` */
    PICKLESTEP_OUT_OF_MEMORY = 1, /* memory ran out, or the limit of the thread was met */
    PICKLESTEP_TOO_LARGE = 2,     /* the input has more than 1,073,741,824 bytes */
    PICKLESTEP_NO_ROOM = 3,       /* the text has no room in `out`: its size is told, so that one can ask again with that much room */
    PICKLESTEP_NO_TASK = 4,       /* the options are not those of the function, or do not go together, or a hole begins before the end of the one
                                     before it, or ends behind 2^62; or a session was to be asked where none is open, or opened where one is */
    PICKLESTEP_LOST = 5           /* a session obeyed or refused the line, and memory ran out for its text */
};

/* What is told of a text, where the answer is PICKLESTEP_DONE or PICKLESTEP_NO_ROOM. */
typedef struct {
    size_t size;    /* its bytes */
    uint8_t status; /* the status of the program: 1 where an opcode or a line is refused, the bytes have a fault, the lines of `calls` end in
                       `unsure:`, `kept:` or `warning:`, a pickle is not in the form or does not pass a list, a loader may reach something,
                       two pickles do not make the same objects, or a hole ends behind the last byte, 2 where a line of a list is no entry, else 0 */
} picklestep_written;

/* The opcodes of a pickle; with `many`, of several pickles that follow one another (`picklestep list FILE [--many]`). */
uint8_t picklestep_list(bool many, const uint8_t *bytes, size_t length, uint8_t *out, size_t room, picklestep_written *written);

/* The objects that a pickle makes (`picklestep objects FILE [--many]`). */
uint8_t picklestep_objects(bool many, const uint8_t *bytes, size_t length, uint8_t *out, size_t room, picklestep_written *written);

/* What pickles that follow one another would import and call (`picklestep calls FILE`). */
uint8_t picklestep_calls(const uint8_t *bytes, size_t length, uint8_t *out, size_t room, picklestep_written *written);

/* What the first pickle alone would import and call (`picklestep calls FILE --first`). */
uint8_t picklestep_calls_first(const uint8_t *bytes, size_t length, uint8_t *out, size_t room, picklestep_written *written);

/* The same of pickles that one unpickler reads, which keeps its memo (`picklestep calls FILE --memo kept`). */
uint8_t picklestep_calls_one_memo(const uint8_t *bytes, size_t length, uint8_t *out, size_t room, picklestep_written *written);

/* Whether the bytes are one pickle in the form that picklers write, with nothing behind it, or the first place at which they are not, and why
 * (`picklestep form FILE`). */
uint8_t picklestep_form(const uint8_t *bytes, size_t length, uint8_t *out, size_t room, picklestep_written *written);
/* The same as a line of JSON (`picklestep form --json FILE`). */
uint8_t picklestep_form_json(const uint8_t *bytes, size_t length, uint8_t *out, size_t room, picklestep_written *written);

/* Whether the bytes are one pickle that passes a list, of `list_length` bytes, or the first place at which they do not, and why
 * (`picklestep gate LIST FILE`). Where a line of the list is no entry, the text says which, and the status is 2. */
uint8_t picklestep_gate(const uint8_t *list, size_t list_length, const uint8_t *bytes, size_t length, uint8_t *out, size_t room,
                        picklestep_written *written);

/* The same as a line of JSON (`picklestep gate --json LIST FILE`). Where a line of the list is no entry, it says which, and the status is 2. */
uint8_t picklestep_gate_json(const uint8_t *list, size_t list_length, const uint8_t *bytes, size_t length, uint8_t *out, size_t room,
                             picklestep_written *written);

/* What a loader was given besides the bytes: the sum of these, or 0, as `pickle.load` with nothing but a file. */
enum {
    PICKLESTEP_EXTENSIONS = 1,     /* it knows extension codes (--extensions) */
    PICKLESTEP_PERSISTENT_IDS = 2, /* it has a persistent_load (--persistent-ids) */
    PICKLESTEP_BUFFERS = 4         /* it was given buffers (--buffers) */
};

/* Whether any loader that begins at the first of the bytes reaches something, and by which opcode first, whatever it does with frames
 * (`picklestep reach FILE`). The bytes need not be a pickle. PICKLESTEP_NO_TASK where `granted` is no such sum. */
uint8_t picklestep_reach(uint32_t granted, const uint8_t *bytes, size_t length, uint8_t *out, size_t room, picklestep_written *written);
/* The same as a line of JSON (`picklestep reach --json FILE`). */
uint8_t picklestep_reach_json(uint32_t granted, const uint8_t *bytes, size_t length, uint8_t *out, size_t room, picklestep_written *written);

/* The members of the zip archive that the bytes are, in the form in which usual writers write, or the first rule that they break, and where
 * (`picklestep members FILE`). */
uint8_t picklestep_members(const uint8_t *bytes, size_t length, uint8_t *out, size_t room, picklestep_written *written);
/* The same as JSON Lines (`picklestep members --json FILE`). */
uint8_t picklestep_members_json(const uint8_t *bytes, size_t length, uint8_t *out, size_t room, picklestep_written *written);

/* The bytes that a text of opcodes is assembled to, which has lines as `picklestep list` prints them (`picklestep assemble FILE`). Where a line
 * gives none, its number and the reason are the text, and the status is 1. */
uint8_t picklestep_assemble(const uint8_t *text, size_t length, uint8_t *out, size_t room, picklestep_written *written);

/* Whether two pickles, or with `many` several in each input that follow one another, make the same objects in the same order, or how they differ
 * (`picklestep same FILE OTHER [--many]`). The status is 0 where they make the same, else 1. */
uint8_t picklestep_same(bool many, const uint8_t *bytes, size_t length, const uint8_t *other, size_t other_length, uint8_t *out, size_t room,
                        picklestep_written *written);
/* The same as a line of JSON (`picklestep same --json FILE OTHER [--many]`). */
uint8_t picklestep_same_json(bool many, const uint8_t *bytes, size_t length, const uint8_t *other, size_t other_length, uint8_t *out, size_t room,
                             picklestep_written *written);

/* The answers of a conversation: those to all lines of a script, of `script_length` bytes, in a session of a pickle, or with `many` of several
 * (`picklestep debug FILE [--many]`, with the script as its standard input). A conversation that goes on is asked with all lines so far. */
uint8_t picklestep_debug(bool many, const uint8_t *bytes, size_t length, const uint8_t *script, size_t script_length, uint8_t *out, size_t room,
                         picklestep_written *written);

/* The options of the functions below, whose sum is given: those of the program. */
enum {
    PICKLESTEP_MANY = 1,      /* --many */
    PICKLESTEP_UNFRAMED = 2,  /* --unframed (not for calls) */
    PICKLESTEP_FIRST = 4,     /* --first (for calls) */
    PICKLESTEP_MEMO_KEPT = 8, /* --memo kept (for calls, not with --first) */
    PICKLESTEP_FULL = 16      /* --full (for calls) */
};

/* Bytes of an input that are left out (`--skip OFFSET:SIZE`). */
typedef struct {
    uint64_t offset;
    uint64_t size;
} picklestep_hole;

/* The same texts as above, with options. `holes` are `count` of them, in order, none of which overlaps another (`count` may be 0): what is left is
 * read, with the offsets of the input. With holes the input is copied. */
uint8_t picklestep_list_with(uint32_t options, const uint8_t *bytes, size_t length, uint8_t *out, size_t room, picklestep_written *written);
/* The listing as JSON Lines (`picklestep list --json FILE`), with PICKLESTEP_MANY and PICKLESTEP_UNFRAMED as options. */
uint8_t picklestep_list_json(uint32_t options, const uint8_t *bytes, size_t length, uint8_t *out, size_t room, picklestep_written *written);
uint8_t picklestep_objects_with(uint32_t options, const uint8_t *bytes, size_t length, uint8_t *out, size_t room, picklestep_written *written);
/* The objects as JSON Lines (`picklestep objects --json FILE`), with PICKLESTEP_MANY and PICKLESTEP_UNFRAMED as options. */
uint8_t picklestep_objects_json(uint32_t options, const uint8_t *bytes, size_t length, uint8_t *out, size_t room, picklestep_written *written);
uint8_t picklestep_calls_with(uint32_t options, const picklestep_hole *holes, size_t count, const uint8_t *bytes, size_t length, uint8_t *out,
                              size_t room, picklestep_written *written);
/* What is imported and called as JSON Lines (`picklestep calls --json FILE`), with the options and the holes of picklestep_calls_with. */
uint8_t picklestep_calls_json(uint32_t options, const picklestep_hole *holes, size_t count, const uint8_t *bytes, size_t length, uint8_t *out,
                              size_t room, picklestep_written *written);
uint8_t picklestep_debug_with(uint32_t options, const uint8_t *bytes, size_t length, const uint8_t *script, size_t script_length, uint8_t *out,
                              size_t room, picklestep_written *written);

/* A session that stays open from call to call: a pickle that is stepped, looked at and edited line by line. It begins as {0}, in which none is open.
 * What is in it belongs to the library: nobody may change or copy it while a session is open. A session answers one call at a time. The proofs know
 * of sessions that stay on the thread that opened them. */
typedef struct {
    void *at;
    size_t is_open; /* 1 or 0 */
} picklestep_session;

/* Opens a session of the bytes, which are copied (`picklestep debug FILE`), with PICKLESTEP_MANY, PICKLESTEP_UNFRAMED, both or 0. It remembers the
 * latest `window` steps to go back by (--window), of 1,000,000 at most, or all where `window` is 0. */
uint8_t picklestep_open(uint32_t options, size_t window, const uint8_t *bytes, size_t length, picklestep_session *session);

/* Obeys a line, which has no newline, and answers what `debug` answers to it; `status` is 1 where the line is refused. The lines that are asked one
 * after another are answered as a script of them is. PICKLESTEP_NO_ROOM: the line was obeyed, and its text waits for picklestep_again.
 * PICKLESTEP_OUT_OF_MEMORY: it was not obeyed. The session goes on after each of these answers. */
uint8_t picklestep_ask(picklestep_session *session, const uint8_t *line, size_t line_length, uint8_t *out, size_t room, picklestep_written *written);

/* The same with a line of JSON in the place of the text (`picklestep debug --json FILE`): it ends in a newline, and tells what the text tells. */
uint8_t picklestep_ask_json(picklestep_session *session, const uint8_t *line, size_t line_length, uint8_t *out, size_t room, picklestep_written *written);

/* The text of the latest line that was obeyed, once more, or the line of JSON where this was asked for. */
uint8_t picklestep_again(picklestep_session *session, uint8_t *out, size_t room, picklestep_written *written);

/* The bytes of the pickle as it is, edits and all: what `debug --save` would save. */
uint8_t picklestep_bytes(picklestep_session *session, uint8_t *out, size_t room, picklestep_written *written);

/* Closes the session, if one is open, and gives back its memory. The answer is PICKLESTEP_DONE. */
uint8_t picklestep_close(picklestep_session *session);

/* How many bytes of memory the calls on this thread may hold at most from now on, besides `bytes`, `out`, and what its sessions hold already;
 * SIZE_MAX, as at first, is no limit. (The module for WebAssembly has no such function: there the limit is that of its memory.) */
void picklestep_limit_memory(size_t most);

#ifdef __cplusplus
}
#endif

#endif
