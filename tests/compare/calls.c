/*
 * calls.c - makes calls of the library, or of bench/plain.c, for a program that
 * cannot link it
 *
 * Batches come in on standard input, and for each one a batch of answers goes
 * out on standard output; a batch is read to its end before its first call is
 * made. It is a length of four octets, then that many octets, call behind call.
 *
 *   a call     1  which one: its place in tests/calls/calls.txt
 *              1  lend empty buffers as NULL
 *              .. what it is given, in the order that stands there
 *   an answer  1  what went wrong (enum fault, ored)
 *              20 the answer, field behind field (SAID)
 *              .. each buffer that the call may write, as it left it (enum buffer)
 *
 * Numbers have the octets of their types, the least significant first. A buffer is
 * a length in octets, four of them, then these. A row is the fields of its sessions;
 * one struct that is lent is its fields without a length.
 *
 * Every call is made twice: with each buffer between guard octets, then with
 * each buffer in front of a page that cannot be touched. Both must come to the
 * same.
 */
#define _DEFAULT_SOURCE
#include "watched.h"

#include <sys/resource.h>

enum { LENGTH = 4 }; /* octets of a length */

/* Octets of the length that stands before a buffer: one struct has none. */
static int before(int buffer)
{
    return single[buffer] != 0 ? 0 : LENGTH;
}

#ifdef PLAIN
DECLARE_CALLS(plain)
static const struct calls asked = CALLS_OF(plain);
#else
static const struct calls asked = CALLS_OF(tacit);
#endif

static struct places places;

/* ---------------------------------------------------------------------- */
/* Calls                                                                   */
/* ---------------------------------------------------------------------- */

/* What is left of a batch. */
struct batch {
    struct source source;
    struct octets left;
};

static struct octets take_octets(struct batch *batch, size_t length)
{
    if (length > batch->left.length)
        stop("a batch ends within a call");
    struct octets taken = {batch->left.start, length};
    batch->left.start += length;
    batch->left.length -= length;
    return taken;
}

static uint64_t take_number(struct source *source, int octets)
{
    return get_number(take_octets((struct batch *)source, (size_t)octets).start, octets);
}

static const uint8_t *take_fields(struct source *source, size_t length)
{
    return take_octets((struct batch *)source, length).start;
}

static bool take_flag(struct source *source)
{
    return take_number(source, 1) != 0;
}

static struct octets take_buffer(struct source *source, enum buffer which)
{
    size_t length = single[which];
    if (length == 0)
        length = (size_t)take_number(source, LENGTH);
    if (length > LARGEST)
        stop("a buffer is too long");
    if (of_sessions[which] && length % SESSION_OCTETS != 0)
        stop("a row ends within a session");
    return take_octets((struct batch *)source, length);
}

static struct given take_call(struct batch *batch)
{
    struct given given = {.call = (uint8_t)take_number(&batch->source, 1)};
    given.null = take_flag(&batch->source);
    if (given.call >= CALLS)
        stop("no such call");
    take_given(&given, &batch->source);
    return given;
}

/* ---------------------------------------------------------------------- */
/* Answers                                                                 */
/* ---------------------------------------------------------------------- */

/* The most octets that the answer to a call may have. */
static size_t most_octets(const struct given *given)
{
    size_t most = 1 + SAID;
    for (int i = 0; i < BUFFERS; i++)
        most += LENGTH + given->lent[i].length;
    return most;
}

static uint8_t *put_left(uint8_t *to, const struct given *given)
{
    for (int i = 0; i < BUFFERS; i++) {
        if (is_written(given, i)) {
            to = put_number(to, given->lent[i].length, before(i));
            to = put_place(to, (enum buffer)i, &places.of[i]);
        }
    }
    return to;
}

/* Did the call leave the same again? */
static bool left_again(const uint8_t *left, const struct given *given)
{
    for (int i = 0; i < BUFFERS; i++) {
        if (is_written(given, i)) {
            struct octets octets = {left + before(i), given->lent[i].length};
            if (!stands((enum buffer)i, &places.of[i], octets))
                return false;
            left = octets.start + octets.length;
        }
    }
    return true;
}

/* Makes a call both ways, writes its answer and hands back where that ends. */
static uint8_t *serve(const struct given *given, uint8_t *answer)
{
    uint8_t *said = answer + 1, *left = said + SAID;
    uint8_t faults = make_watched(&asked, given, &places, false, said);
    uint8_t *end = put_left(left, given);
    if (faults == 0) {
        uint8_t again[SAID];
        faults = make_watched(&asked, given, &places, true, again);
        if (memcmp(said, again, SAID) != 0 || !left_again(left, given))
            faults |= UNSTEADY;
    }
    *answer = faults;
    return end;
}

/* ---------------------------------------------------------------------- */
/* Batches                                                                 */
/* ---------------------------------------------------------------------- */

/* Memory for a batch, kept from one to the next. */
struct store {
    uint8_t *start;
    size_t size, used;
};

static void make_room(struct store *store, size_t size)
{
    if (size <= store->size)
        return;
    store->start = realloc(store->start, 2 * size);
    if (store->start == NULL)
        stop("no memory");
    store->size = 2 * size;
}

int main(void)
{
    setrlimit(RLIMIT_CORE, &(struct rlimit){0, 0});
    prepare(&places);
    struct store calls = {NULL, 0, 0}, answers = {NULL, 0, 0};
    uint8_t length[LENGTH];
    while (fread(length, 1, sizeof length, stdin) == sizeof length) {
        size_t octets = (size_t)get_number(length, LENGTH);
        make_room(&calls, octets);
        if (fread(calls.start, 1, octets, stdin) != octets)
            stop("a batch is cut short");
        struct batch batch = {{take_flag, take_number, take_fields, take_buffer},
                              {calls.start, octets}};
        answers.used = LENGTH;
        while (batch.left.length > 0) {
            struct given given = take_call(&batch);
            make_room(&answers, answers.used + most_octets(&given));
            uint8_t *end = serve(&given, answers.start + answers.used);
            answers.used = (size_t)(end - answers.start);
        }
        make_room(&answers, answers.used);
        put_number(answers.start, answers.used - LENGTH, LENGTH);
        if (fwrite(answers.start, 1, answers.used, stdout) != answers.used || fflush(stdout) != 0)
            stop("the answers cannot be written");
    }
    return 0;
}
