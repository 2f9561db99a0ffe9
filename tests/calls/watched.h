/*
 * watched.h - calls made on buffers around which nothing may be touched
 *
 * The calls are those of the library, or of anything with the same calls. A
 * session of a row is octets here, field behind field and without padding, and only
 * its fields are ever compared.
 */
#ifndef WATCHED_H
#define WATCHED_H

#include "calls.h"

#include <sys/mman.h>
#include <unistd.h>

/* ---------------------------------------------------------------------- */
/* Octets                                                                  */
/* ---------------------------------------------------------------------- */

enum {
    GUARD = 32,           /* guard octets on each side of a buffer */
    LARGEST = 128 * 1024, /* octets that a buffer may have */
};

/* Memory for one buffer, with a page behind it that cannot be touched. */
struct place {
    uint8_t *start, *end;
    uint8_t *lent;
    size_t length;
    bool to_the_end;
};

/* Places for the buffers of one call. */
struct places {
    struct place of[BUFFERS];
};

static inline void prepare(struct places *places)
{
    size_t page = (size_t)sysconf(_SC_PAGESIZE);
    size_t size = (LARGEST + 2 * GUARD + 1 + page - 1) / page * page;
    for (int i = 0; i < BUFFERS; i++) {
        void *memory =
            mmap(NULL, size + page, PROT_READ | PROT_WRITE, MAP_PRIVATE | MAP_ANONYMOUS, -1, 0);
        if (memory == MAP_FAILED || mprotect((uint8_t *)memory + size, page, PROT_NONE) != 0)
            stop("no memory");
        places->of[i].start = memory;
        places->of[i].end = places->of[i].start + size;
    }
}

/* The octets of a guard; in the two ways to lend they differ. */
static inline const char *guard_of(const struct place *place)
{
    return place->to_the_end ? "GUARD OCTETS, NOT TO BE TOUCHED!" : "guard octets, not to be touched.";
}

/*
 * Puts octets into a place: between guards, at an odd address; or behind a guard
 * and in front of the page that cannot be touched.
 */
static inline void lend_octets(struct place *place, struct octets octets)
{
    place->lent = place->to_the_end ? place->end - octets.length : place->start + GUARD + 1;
    place->length = octets.length;
    if (octets.length > 0)
        memcpy(place->lent, octets.start, octets.length);
    memcpy(place->lent - GUARD, guard_of(place), GUARD);
    if (!place->to_the_end)
        memcpy(place->lent + octets.length, guard_of(place), GUARD);
}

static inline bool octets_guarded(const struct place *place)
{
    return memcmp(place->lent - GUARD, guard_of(place), GUARD) == 0 &&
           (place->to_the_end ||
            memcmp(place->lent + place->length, guard_of(place), GUARD) == 0);
}

/* ---------------------------------------------------------------------- */
/* Rows                                                                    */
/* ---------------------------------------------------------------------- */

/*
 * Guard sessions on each side of a row: more than a row number misses it by. They
 * are odd in number, so that a row is aligned as its sessions must be and no more.
 */
enum { GUARDS = 69 };

/*
 * The guard sessions in the two places: where more of them follow, sound ones that
 * use every application, so that it shows if one is counted; in front of the page
 * that cannot be touched, ones that are not sound.
 */
static inline const struct tacit_session *guards_of(const struct place *place)
{
    static const struct tacit_session one[2] = {
        {.state = TACIT_OPEN,
         .flags = TACIT_FLAG_ACTIVE | TACIT_FLAG_USES_TAC | TACIT_FLAG_IN_FORCE,
         .enabled = TACIT_ALL_APPS,
         .listed = TACIT_ALL_APPS,
         .ours = TACIT_ALL_CAPABILITIES,
         .theirs = TACIT_ALL_CAPABILITIES},
        {.state = 0x5A,
         .flags = 0x5A,
         .disabled = 0x5A,
         .ours = 0x5A,
         .theirs = 0x5A,
         .hello = 0x5A5A5A5A,
         .next = 0x5A5A5A5A},
    };
    static struct tacit_session all[2][GUARDS];
    struct tacit_session *guards = all[place->to_the_end];
    if (guards->state == 0) {
        for (size_t i = 0; i < GUARDS; i++)
            memcpy(&guards[i], &one[place->to_the_end], sizeof one[0]);
    }
    return guards;
}

/* Puts a row into a place, with padding that is another one in the other place. */
static inline void lend_row(struct place *place, struct octets row)
{
    size_t count = row.length / SESSION_OCTETS;
    struct tacit_session *sessions = (struct tacit_session *)(void *)place->start + GUARDS;
    if (place->to_the_end)
        sessions = (struct tacit_session *)(void *)place->end - count;
    place->lent = (uint8_t *)sessions;
    place->length = count * sizeof *sessions;
    memset(place->lent, place->to_the_end ? 0xFF : 0x00, place->length);
    for (size_t i = 0; i < count; i++)
        get_session(sessions + i, row.start + SESSION_OCTETS * i);
    memcpy(sessions - GUARDS, guards_of(place), GUARDS * sizeof *sessions);
    if (!place->to_the_end)
        memcpy(sessions + count, guards_of(place), GUARDS * sizeof *sessions);
}

/* Is every guard session as it was? Padding too: nothing may be written there. */
static inline bool row_guarded(const struct place *place)
{
    const struct tacit_session *guards = guards_of(place);
    size_t length = GUARDS * sizeof *guards;
    return memcmp(place->lent - length, guards, length) == 0 &&
           (place->to_the_end || memcmp(place->lent + place->length, guards, length) == 0);
}

/* ---------------------------------------------------------------------- */
/* Either                                                                  */
/* ---------------------------------------------------------------------- */

static inline void lend(enum buffer which, struct place *place, struct octets octets,
                        bool to_the_end)
{
    place->to_the_end = to_the_end;
    if (of_sessions[which])
        lend_row(place, octets);
    else
        lend_octets(place, octets);
}

static inline bool guarded(enum buffer which, const struct place *place)
{
    return of_sessions[which] ? row_guarded(place) : octets_guarded(place);
}

/* Writes what stands in a place, sessions as their fields; where that ends. */
static inline uint8_t *put_place(uint8_t *to, enum buffer which, const struct place *place)
{
    if (!of_sessions[which])
        return (uint8_t *)memcpy(to, place->lent, place->length) + place->length;
    const struct tacit_session *sessions = (const struct tacit_session *)(void *)place->lent;
    for (size_t i = 0; i < place->length / sizeof *sessions; i++)
        to = put_session(to, sessions + i);
    return to;
}

/* Do these octets, or sessions with these fields, stand in a place? */
static inline bool stands(enum buffer which, const struct place *place, struct octets octets)
{
    if (octets.length == 0)
        return true;
    if (!of_sessions[which])
        return memcmp(place->lent, octets.start, octets.length) == 0;
    const struct tacit_session *sessions = (const struct tacit_session *)(void *)place->lent;
    for (size_t i = 0; i < octets.length / SESSION_OCTETS; i++) {
        uint8_t fields[SESSION_OCTETS];
        put_session(fields, sessions + i);
        if (memcmp(fields, octets.start + SESSION_OCTETS * i, SESSION_OCTETS) != 0)
            return false;
    }
    return true;
}

/* ---------------------------------------------------------------------- */
/* Calls                                                                   */
/* ---------------------------------------------------------------------- */

enum fault {
    GUARD_CHANGED = 1, /* octets outside the buffers were written */
    INPUT_CHANGED = 2, /* octets were written that are only to be read */
    UNSTEADY = 4       /* the same call came to something else the second time */
};

static inline bool is_lent(const struct given *given, int buffer)
{
    return lent_to[given->call] >> buffer & 1;
}

static inline bool is_written(const struct given *given, int buffer)
{
    return written_by[given->call] >> buffer & 1;
}

/*
 * Makes a call on watched buffers, which stay in their places, and says what went
 * wrong beside its answer.
 */
static inline uint8_t make_watched(const struct calls *calls, const struct given *given,
                                   struct places *places, bool to_the_end, uint8_t *said)
{
    void *at[BUFFERS] = {NULL};
    uint8_t faults = 0;
    for (int i = 0; i < BUFFERS; i++) {
        if (is_lent(given, i)) {
            lend((enum buffer)i, &places->of[i], given->lent[i], to_the_end);
            if (!given->null || given->lent[i].length > 0)
                at[i] = places->of[i].lent;
        }
    }
    make_call(calls, given, at, said);
    for (int i = 0; i < BUFFERS; i++) {
        const struct place *place = &places->of[i];
        if (is_lent(given, i) && !guarded((enum buffer)i, place))
            faults |= GUARD_CHANGED;
        if (is_lent(given, i) && !is_written(given, i) &&
            !stands((enum buffer)i, place, given->lent[i]))
            faults |= INPUT_CHANGED;
    }
    return faults;
}

#endif
