// Asks the library. Each line of standard input has a task, which is words of the program (list --many, calls --skip 3:2, debug; or gate with the
// file of a list; or reach; or session, whose lines are asked one by one of a session that stays open; or saved, for the bytes that it has then), a
// limit of memory in bytes (0: none), the file that is asked about, the file that the text is put in, and the file of the script of a conversation,
// with tabs between them. For each, a line of standard output has the answer and the status. Status 1 where a file cannot be read or written.
#include <picklestep.h>
#include <stdio.h>
#include <stdlib.h>
#include <string.h>

typedef struct {
    uint8_t *bytes;
    size_t size;
} memory;

static void fail(const char *what) {
    perror(what);
    exit(1);
}

static memory room_for(size_t size) {
    memory m = {malloc(size + 1), size};
    if (!m.bytes)
        fail("malloc");
    return m;
}

static memory content_of(const char *path) {
    FILE *file = fopen(path, "rb");
    if (!file || fseek(file, 0, SEEK_END))
        fail(path);
    memory m = room_for((size_t)ftell(file));
    rewind(file);
    if (fread(m.bytes, 1, m.size, file) != m.size)
        fail(path);
    fclose(file);
    return m;
}

// What is asked in a conversation.
static memory script;

// The words of a task that are options.
typedef struct {
    uint32_t options;
    picklestep_hole holes[8];
    size_t count;
} options;

static const struct {
    const char *word;
    uint32_t option;
} OPTIONS[] = {
    {"--many", PICKLESTEP_MANY},      {"--unframed", PICKLESTEP_UNFRAMED}, {"--first", PICKLESTEP_FIRST},
    {"--memo", PICKLESTEP_MEMO_KEPT}, {"--full", PICKLESTEP_FULL},
};

static const struct {
    const char *word;
    uint32_t granted;
} GRANTED[] = {
    {" --extensions", PICKLESTEP_EXTENSIONS},
    {" --persistent-ids", PICKLESTEP_PERSISTENT_IDS},
    {" --buffers", PICKLESTEP_BUFFERS},
};

static bool begins(const char *text, const char *front) { return !strncmp(text, front, strlen(front)); }

static options options_of(const char *task) {
    options o = {0};
    for (const char *word = strstr(task, " --"); word; word = strstr(word + 1, " --")) {
        for (size_t i = 0; i < sizeof OPTIONS / sizeof *OPTIONS; i++)
            if (begins(word + 1, OPTIONS[i].word))
                o.options |= OPTIONS[i].option;
        char *rest;
        if (begins(word, " --skip ") && o.count < sizeof o.holes / sizeof *o.holes) {
            o.holes[o.count].offset = strtoull(word + strlen(" --skip "), &rest, 10);
            o.holes[o.count++].size = strtoull(rest + 1, NULL, 10);
        }
    }
    return o;
}

static uint8_t ask_with(const char *task, memory given, memory out, picklestep_written *written) {
    const options o = options_of(task);
    if (begins(task, "list") && strstr(task, " --json"))
        return picklestep_list_json(o.options, given.bytes, given.size, out.bytes, out.size, written);
    if (begins(task, "list"))
        return picklestep_list_with(o.options, given.bytes, given.size, out.bytes, out.size, written);
    if (begins(task, "objects"))
        return (strstr(task, " --json") ? picklestep_objects_json : picklestep_objects_with)(o.options, given.bytes, given.size, out.bytes, out.size, written);
    if (begins(task, "calls"))
        return (strstr(task, " --json") ? picklestep_calls_json : picklestep_calls_with)(o.options, o.holes, o.count, given.bytes, given.size, out.bytes,
                                                                                         out.size, written);
    if (begins(task, "debug"))
        return picklestep_debug_with(o.options, given.bytes, given.size, script.bytes, script.size, out.bytes, out.size, written);
    fputs("there is no such task\n", stderr);
    exit(1);
}

// The texts of the lines of the script, asked one after another of a session up to `quit`, or then its bytes. The room of each is what `out` has left.
static uint8_t ask_session(const char *task, memory given, memory out, picklestep_written *written) {
    const char *window = strstr(task, " --window ");
    picklestep_session session = {0};
    uint8_t found = picklestep_open(options_of(task).options, window ? strtoul(window + strlen(" --window "), NULL, 10) : 0, given.bytes, given.size, &session);
    size_t size = 0, left = out.size, next;
    uint8_t status = 0;
    static uint8_t none[1];
    for (size_t at = 0; found == PICKLESTEP_DONE && at < script.size; at = next) {
        const uint8_t *line = script.bytes + at, *end = memchr(line, '\n', script.size - at);
        const size_t length = end ? (size_t)(end - line) : script.size - at;
        next = at + length + 1;
        if (length == 4 && !memcmp(line, "quit", 4))
            break;
        found = (strstr(task, " --json") ? picklestep_ask_json : picklestep_ask)(&session, line, length, left ? out.bytes + size : none, left, written);
        if (found == PICKLESTEP_NO_ROOM) { // (the text waits; all further ones are only counted)
            picklestep_written again;
            if (left && picklestep_again(&session, out.bytes + size, left, &again) != PICKLESTEP_NO_ROOM)
                exit(1);
            found = PICKLESTEP_DONE, left = 0;
        } else if (left) {
            left -= written->size;
        }
        size += written->size;
        status |= written->status;
    }
    if (found == PICKLESTEP_DONE && begins(task, "saved"))
        found = picklestep_bytes(&session, out.bytes, out.size, written);
    else if (found == PICKLESTEP_DONE)
        *written = (picklestep_written){size, status};
    if (found == PICKLESTEP_DONE && written->size > out.size)
        found = PICKLESTEP_NO_ROOM;
    if (picklestep_close(&session) != PICKLESTEP_DONE || session.is_open)
        exit(1);
    return found;
}

static uint8_t ask_gate(const char *path, memory given, memory out, picklestep_written *written) {
    const char *json = "--json ";
    bool is_json = begins(path, json);
    memory list = content_of(path + (is_json ? strlen(json) : 0));
    uint8_t found = (is_json ? picklestep_gate_json : picklestep_gate)(list.bytes, list.size, given.bytes, given.size, out.bytes, out.size, written);
    free(list.bytes);
    return found;
}

static uint8_t ask_same(const char *path, memory given, memory out, picklestep_written *written) {
    const char *json = "--json ", *many = "--many ";
    bool is_json = begins(path, json);
    path += is_json ? strlen(json) : 0;
    bool is_many = begins(path, many);
    memory one = content_of(path + (is_many ? strlen(many) : 0));
    uint8_t found = (is_json ? picklestep_same_json : picklestep_same)(is_many, one.bytes, one.size, given.bytes, given.size, out.bytes, out.size, written);
    free(one.bytes);
    return found;
}

static uint8_t ask_reach(const char *task, memory given, memory out, picklestep_written *written) {
    uint32_t granted = 0;
    for (size_t i = 0; i < sizeof GRANTED / sizeof *GRANTED; i++)
        if (strstr(task, GRANTED[i].word))
            granted |= GRANTED[i].granted;
    return (strstr(task, " --json") ? picklestep_reach_json : picklestep_reach)(granted, given.bytes, given.size, out.bytes, out.size, written);
}

// A task is asked of the function without options where there is one.
static uint8_t ask(const char *task, memory given, memory out, picklestep_written *written) {
    bool many = strstr(task, " --many") != NULL;
    if (!strcmp(task, many ? "list --many" : "list"))
        return picklestep_list(many, given.bytes, given.size, out.bytes, out.size, written);
    if (!strcmp(task, many ? "objects --many" : "objects"))
        return picklestep_objects(many, given.bytes, given.size, out.bytes, out.size, written);
    if (!strcmp(task, "calls"))
        return picklestep_calls(given.bytes, given.size, out.bytes, out.size, written);
    if (!strcmp(task, "calls --first"))
        return picklestep_calls_first(given.bytes, given.size, out.bytes, out.size, written);
    if (!strcmp(task, "calls --memo kept"))
        return picklestep_calls_one_memo(given.bytes, given.size, out.bytes, out.size, written);
    if (!strcmp(task, "form"))
        return picklestep_form(given.bytes, given.size, out.bytes, out.size, written);
    if (!strcmp(task, "members"))
        return picklestep_members(given.bytes, given.size, out.bytes, out.size, written);
    if (!strcmp(task, "members --json"))
        return picklestep_members_json(given.bytes, given.size, out.bytes, out.size, written);
    if (!strcmp(task, "assemble"))
        return picklestep_assemble(given.bytes, given.size, out.bytes, out.size, written);
    if (!strcmp(task, "form --json"))
        return picklestep_form_json(given.bytes, given.size, out.bytes, out.size, written);
    if (begins(task, "gate "))
        return ask_gate(task + strlen("gate "), given, out, written);
    if (begins(task, "same "))
        return ask_same(task + strlen("same "), given, out, written);
    if (begins(task, "reach"))
        return ask_reach(task, given, out, written);
    if (begins(task, "session") || begins(task, "saved"))
        return ask_session(task, given, out, written);
    if (!strcmp(task, many ? "debug --many" : "debug"))
        return picklestep_debug(many, given.bytes, given.size, script.bytes, script.size, out.bytes, out.size, written);
    return ask_with(task, given, out, written);
}

static void answer(const char *task, size_t most, const char *from, const char *to, const char *lines) {
    memory given = content_of(from), out = room_for(200);
    script = content_of(lines);
    picklestep_written written = {0, 0};
    picklestep_limit_memory(most ? most : SIZE_MAX);
    uint8_t found = ask(task, given, out, &written);
    if (found == PICKLESTEP_NO_ROOM) {
        // One byte less is not enough.
        free(out.bytes);
        out = room_for(written.size - 1);
        if (written.size <= 200 || ask(task, given, out, &written) != PICKLESTEP_NO_ROOM)
            exit(1);
        free(out.bytes);
        out = room_for(written.size);
        out.bytes[out.size] = 77;
        found = ask(task, given, out, &written);
        if (found == PICKLESTEP_DONE && (written.size != out.size || out.bytes[out.size] != 77))
            exit(1);
    }
    FILE *file = fopen(to, "wb");
    if (!file || (found == PICKLESTEP_DONE && fwrite(out.bytes, 1, written.size, file) != written.size) || fclose(file))
        fail(to);
    printf("%d %d\n", found, written.status);
    free(given.bytes);
    free(out.bytes);
    free(script.bytes);
}

int main(void) {
    char line[4 * 4096];
    while (fgets(line, sizeof line, stdin)) {
        const char *task = strtok(line, "\t"), *most = strtok(NULL, "\t"), *from = strtok(NULL, "\t"), *to = strtok(NULL, "\t");
        const char *lines = strtok(NULL, "\n");
        if (!lines)
            return 1;
        answer(task, (size_t)strtoull(most, NULL, 10), from, to, lines);
    }
    return 0;
}
