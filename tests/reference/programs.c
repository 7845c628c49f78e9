#define _POSIX_C_SOURCE 200809L

#include <errno.h>
#include <fcntl.h>
#include <inttypes.h>
#include <signal.h>
#include <stdio.h>
#include <stdlib.h>
#include <string.h>
#include <sys/wait.h>
#include <unistd.h>

#include "cases.h"
#include "doors.h"

enum { PATH_ROOM = 4096, SECONDS_MOST = 120, SHOWN = 300 };

/* How one program is asked: the model's answer to a line. */
typedef void answering(struct console *console, const char *line, size_t length, int finished, struct text *text, struct asked *asked);

/* ---- files ---- */

static int cannot(const char *what, const char *path)
{
    fprintf(stderr, "reference: %s can't be %s\n", path, what);
    return 0;
}

static void path_of(const struct program *program, const char *end, char *path)
{
    snprintf(path, PATH_ROOM, "%s/%s.%s", program->folder, program->name, end);
}

static int write_file(const struct program *program, const char *end, const struct text *text)
{
    char path[PATH_ROOM];
    FILE *file;
    size_t written;

    path_of(program, end, path);
    file = fopen(path, "wb");
    if (file == NULL)
        return cannot("written", path);
    written = text->length > 0 ? fwrite(text->bytes, 1, text->length, file) : 0;
    if (fclose(file) != 0 || written != text->length)
        return cannot("written", path);
    return 1;
}

static int read_file(const struct program *program, const char *end, struct text *text)
{
    char path[PATH_ROOM];
    static char part[65536];
    size_t length;
    FILE *file;

    path_of(program, end, path);
    file = fopen(path, "rb");
    if (file == NULL)
        return cannot("read", path);
    while ((length = fread(part, 1, sizeof part, file)) > 0)
        put_bytes(text, part, length);
    fclose(file);
    return 1;
}

/* ---- running a program ---- */

static void open_as(const char *path, int flags, int number)
{
    int opened = open(path, flags, 0644);

    if (opened < 0 || dup2(opened, number) < 0)
        _exit(127);
}

/* Who stops a long test stops it after the round: the program that is running finishes. One that hangs is ended. */
static void become(const struct program *program)
{
    char path[PATH_ROOM];

    path_of(program, "in", path);
    open_as(path, O_RDONLY, 0);
    path_of(program, "out", path);
    open_as(path, O_WRONLY | O_CREAT | O_TRUNC, 1);
    signal(SIGINT, SIG_IGN);
    signal(SIGTERM, SIG_IGN);
    alarm(SECONDS_MOST);
    execl(program->path, program->path, (char *)NULL);
    _exit(127);
}

static int run(const struct program *program)
{
    int status = 0;
    pid_t child, ended;

    fflush(NULL);
    child = fork();
    if (child == 0)
        become(program);
    if (child < 0)
        return cannot("started", program->path);
    do
        ended = waitpid(child, &status, 0);
    while (ended < 0 && errno == EINTR);
    if (ended != child)
        return cannot("waited for", program->path);
    if (WIFEXITED(status) && WEXITSTATUS(status) == 0)
        return 1;
    fprintf(stderr, "reference: %s: expected status 0, got wait status %d\n", program->path, status);
    return 0;
}

/* ---- comparing ---- */

static size_t line_length(const struct text *text, size_t from)
{
    const char *newline = memchr(text->bytes + from, '\n', text->length - from);

    return newline == NULL ? text->length - from : (size_t)(newline - text->bytes) - from;
}

/* Bytes that can be shown stand for themselves; of a long line the part round the difference is shown. */
static void show(const char *what, const char *bytes, size_t length, size_t from)
{
    size_t begin = from > SHOWN ? from - SHOWN / 2 : 0;

    fprintf(stderr, "    %s (%zu bytes)%s", what, length, begin > 0 ? ", from byte " : ": ");
    if (begin > 0)
        fprintf(stderr, "%zu on: ", begin);
    for (size_t i = begin; i < length && i < begin + 2 * SHOWN; i++) {
        unsigned char byte = (unsigned char)bytes[i];

        fprintf(stderr, byte < 32 || byte > 126 ? "\\x%02x" : "%c", byte);
    }
    fprintf(stderr, "\n");
}

static size_t first_difference(const char *a, size_t a_length, const char *b, size_t b_length)
{
    size_t i = 0;

    while (i < a_length && i < b_length && a[i] == b[i])
        i++;
    return i;
}

static int differs(const struct program *program, uint64_t number, const char *line, size_t line_bytes, const struct text *expected, size_t expected_at,
                   const struct text *got, size_t got_at)
{
    size_t length = expected->length - expected_at - 1;
    size_t got_length = got_at < got->length ? line_length(got, got_at) : 0;
    size_t from = first_difference(expected->bytes + expected_at, length, got->bytes + got_at, got_length);

    fprintf(stderr, "reference: %s: line %" PRIu64 " of %s/%s.in is answered otherwise\n", program->name, number, program->folder, program->name);
    show("line", line, line_bytes, 0);
    show("expected", expected->bytes + expected_at, length, from);
    show("got", got->bytes + got_at, got_length, from);
    return 0;
}

/* The model must agree with itself where two ways lead to the same fields and chips: stepping, and counting. */
static int model_agrees(const struct asked *asked)
{
    static uint8_t chips[WINDOW_MOST];
    struct channel after = channel_at(asked->after.signal, asked->after.prn, asked->after.place);

    reference_chips(asked->signal, asked->prn, asked->place, chips, (size_t)asked->count);
    return same_channel(&after, &asked->after) && memcmp(chips, asked->chips, (size_t)asked->count) == 0;
}

/* Accepted steps and windows: on a channel that a call could have produced they count for its places. */
static int count_moved(struct coverage *coverage, const struct asked *asked)
{
    struct channel before = channel_at(asked->signal, asked->prn, asked->place);

    if (!same_channel(&before, &asked->before)) {
        coverage->unproduced++;
        return 1;
    }
    cover_chips(coverage, asked->signal, asked->prn, asked->place, asked->count);
    return model_agrees(asked);
}

static int count_asked(struct coverage *coverage, const struct asked *asked)
{
    if (asked->call == NO_CALL) {
        coverage->errors++;
        return 1;
    }
    cover_verdict(coverage, asked->call, asked->verdict);
    if (asked->verdict.refusal == 4)
        cover_channel(coverage, &asked->before);
    if (asked->verdict.refusal != 0)
        return 1;
    if (asked->call == STEP || asked->call == WINDOW)
        return count_moved(coverage, asked);
    if (asked->call == CHIPS || asked->call == LINE)
        cover_chips(coverage, asked->signal, asked->prn, asked->place, asked->count);
    return 1;
}

/* One line after the other, so that a difference is told with the line that it answers. */
static int compare(struct coverage *coverage, const struct program *program, answering *answer, const struct text *in, const struct text *got, struct text *expected)
{
    static struct asked asked;
    struct console console;
    uint64_t number = 1;

    memset(&console, 0, sizeof console);
    for (size_t at = 0; at < in->length; number++) {
        size_t length = line_length(in, at);
        int finished = at + length < in->length;
        size_t begin = expected->length;

        answer(&console, in->bytes + at, length, finished, expected, &asked);
        if (got->length < expected->length || memcmp(got->bytes + begin, expected->bytes + begin, expected->length - begin) != 0)
            return differs(program, number, in->bytes + at, length, expected, begin, got, begin < got->length ? begin : got->length);
        if (!count_asked(coverage, &asked)) {
            fprintf(stderr, "reference: %s: line %" PRIu64 ": the model's two ways differ\n", program->name, number);
            return 0;
        }
        at += length + 1;
    }
    if (got->length != expected->length) {
        fprintf(stderr, "reference: %s: %zu bytes more than expected\n", program->name, got->length - expected->length);
        return 0;
    }
    return 1;
}

static int try_input(struct coverage *coverage, const struct program *program, answering *answer, const struct text *in)
{
    struct text got = { NULL, 0, 0 };
    struct text expected = { NULL, 0, 0 };
    int agreed = 0;

    put(&got, "");
    put(&expected, "");
    if (write_file(program, "in", in) && run(program) && read_file(program, "out", &got))
        agreed = compare(coverage, program, answer, in, &got, &expected) & write_file(program, "expected", &expected);
    free(got.bytes);
    free(expected.bytes);
    return agreed;
}

static void by_line_program(struct console *console, const char *line, size_t length, int finished, struct text *text, struct asked *asked)
{
    (void)console;
    answer_line(line, length, finished, text, asked);
}

static void by_console(struct console *console, const char *line, size_t length, int finished, struct text *text, struct asked *asked)
{
    (void)finished;
    answer_console(console, line, length, text, asked);
}

/* ---- the two doors ---- */

/* The same input without its last newline, then without any line. */
static int try_ends(struct coverage *coverage, const struct program *program, answering *answer, const char *last_line)
{
    struct text in = { NULL, 0, 0 };
    int agreed;

    put(&in, "");
    agreed = try_input(coverage, program, answer, &in);
    put(&in, "%s\n%s", last_line, last_line);
    agreed = agreed && try_input(coverage, program, answer, &in);
    put(&in, "\n\nx");
    agreed = agreed && try_input(coverage, program, answer, &in);
    free(in.bytes);
    return agreed;
}

static int try_made(struct coverage *coverage, const struct program *program, answering *answer, void make(struct text *text))
{
    struct text in = { NULL, 0, 0 };
    int agreed;

    make(&in);
    agreed = try_input(coverage, program, answer, &in);
    free(in.bytes);
    return agreed;
}

static int try_seeded(struct coverage *coverage, const struct program *program, answering *answer, void make(struct text *text, uint64_t seed), uint64_t seed)
{
    struct text in = { NULL, 0, 0 };
    int agreed;

    make(&in, seed);
    agreed = try_input(coverage, program, answer, &in);
    free(in.bytes);
    return agreed;
}

int try_codes(struct coverage *coverage, const struct program *program)
{
    return try_ends(coverage, program, by_line_program, "2 1 0 12") && try_made(coverage, program, by_line_program, fixed_lines);
}

int try_codes_seeded(struct coverage *coverage, const struct program *program, uint64_t seed)
{
    return try_seeded(coverage, program, by_line_program, random_lines, seed);
}

int try_console(struct coverage *coverage, const struct program *program)
{
    return try_ends(coverage, program, by_console, "reading 2 1") && try_made(coverage, program, by_console, fixed_calls);
}

int try_console_seeded(struct coverage *coverage, const struct program *program, uint64_t seed)
{
    return try_seeded(coverage, program, by_console, random_calls, seed);
}
