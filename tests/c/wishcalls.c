/* The calls for wishes, each in a wrapper that works out what it must come to. */
#include "harness.h"

#include <string.h>

#define ROOM_MOST 64

/* ---- What a wish must come to ---- */

struct wish_call {
    uint32_t wishes;
    uint32_t app;
    bool disable;
    size_t room_length;
};

uint32_t kind_of(uint32_t app)
{
    static const uint32_t kinds[] = {0, 1, 7, 8};
    return kinds[app - 1];
}

static struct tacit_wished kept(const struct wish_call *call, uint8_t refusal, uint8_t outcome)
{
    struct tacit_wished wished = {{refusal, outcome, 0, 0, 0}, call->wishes};
    return wished;
}

static struct tacit_wished wanted_of(const struct record *record, const struct wish_call *call)
{
    if (!sound(record) || call->wishes > 15)
        return kept(call, TACIT_REFUSED_NOT_SOUND, TACIT_DONE);
    if (call->app < 1 || call->app > 4)
        return kept(call, TACIT_REFUSED_APP, TACIT_DONE);
    if ((call->wishes >> (call->app - 1) & 1) == call->disable)
        return kept(call, TACIT_NOT_REFUSED, TACIT_UNCHANGED);
    if (record->octets[4] != TACIT_OPEN)
        return kept(call, TACIT_REFUSED_STATE, TACIT_DONE);
    if ((record->octets[5] & TACIT_FLAG_PEER_DYNAMIC) == 0)
        return kept(call, TACIT_REFUSED_NOT_DYNAMIC, TACIT_DONE);
    if (call->room_length < 14)
        return kept(call, TACIT_REFUSED_ROOM, TACIT_DONE);
    struct tacit_wished wished = {{0, TACIT_DONE, 0, 0, 14},
                                  call->wishes ^ (UINT32_C(1) << (call->app - 1))};
    return wished;
}

/* The message reads back as one SAC alone. */
static void put_message(uint8_t *room, uint32_t number, const struct wish_call *call)
{
    const uint8_t message[14] = {
        0x02, 0x02, 0x00, 0x0A,
        (uint8_t)(number >> 24), (uint8_t)(number >> 16), (uint8_t)(number >> 8), (uint8_t)number,
        0x85, 0x0D, 0x00, 0x02, 0x80, (uint8_t)((call->disable ? 0x80 : 0x00) | call->app << 4),
    };
    memcpy(room, message, sizeof message);
    struct tacit_reading reading = read_area(message + 8, sizeof message - 8);
    CHECK(reading.refusal == 0 && reading.dynamic == 0 && reading.capabilities == 0);
    CHECK(reading.tac.length == 0);
    CHECK(reading.sac.start == 4 && reading.sac.length == 2);
}

static bool same_wished(struct tacit_wished a, struct tacit_wished b)
{
    return a.answer.refusal == b.answer.refusal && a.answer.outcome == b.answer.outcome &&
           a.answer.lost == b.answer.lost && a.answer.gained == b.answer.gained &&
           a.answer.written == b.answer.written && a.wishes == b.wishes;
}

/* ---- Wishes ---- */

static struct tacit_wished by_record(struct record *record, const struct wish_call *call,
                                     uint8_t *room)
{
    uint8_t *lent = lend(RECORD, record->octets, record->length);
    struct tacit_wished wished = tacit_wish(lent, record->length, call->wishes, call->app,
                                            call->disable, room, call->room_length);
    CHECK(margin_kept(RECORD, record->length));
    if (record->length != 0)
        memcpy(record->octets, lent, record->length);
    return wished;
}

static struct tacit_wished by_session(struct record *record, const struct wish_call *call,
                                      uint8_t *room)
{
    const struct tacit_session session = session_in(record);
    struct tacit_session *lent = (void *)lend(ROW, (const uint8_t *)&session, sizeof session);
    struct tacit_wished wished = tacit_session_wish(lent, call->wishes, call->app, call->disable,
                                                    room, call->room_length);
    CHECK(margin_kept(ROW, sizeof session));
    *record = record_for(*lent);
    return wished;
}

typedef struct tacit_wished way(struct record *, const struct wish_call *, uint8_t *);

/* One way of making the call; record and room become what they are afterwards. */
static struct tacit_wished wish_by(way *by, struct record *record, const struct wish_call *call,
                                   uint8_t *room)
{
    const size_t length = call->room_length;
    const struct tacit_wished wanted = wanted_of(record, call);
    struct record after = *record;
    uint8_t room_after[ROOM_MOST];
    if (length != 0)
        memcpy(room_after, room, length);
    if (wanted.answer.written != 0) {
        struct tacit_session session = session_in(record);
        put_message(room_after, session.next, call);
        session.next++;
        after = record_for(session);
    }
    uint8_t *lent = lend(ROOM, room, length);
    struct tacit_wished wished = by(record, call, lent);
    CHECK(same_wished(wished, wanted));
    CHECK(same_record(record, &after));
    CHECK(same(lent, room_after, length) && margin_kept(ROOM, length));
    if (length != 0)
        memcpy(room, lent, length);
    return wished;
}

struct tacit_wished wish(struct record *record, uint32_t wishes, uint32_t app, bool disable,
                         uint8_t *room, size_t room_length)
{
    const struct wish_call call = {wishes, app, disable, room_length};
    const struct record session_alone = record_for(session_in(record));
    if (!CHECK(room_length <= ROOM_MOST))
        return kept(&call, 0, 0);
    if (same_record(record, &session_alone)) {
        struct record copy = *record;
        uint8_t room_copy[ROOM_MOST];
        if (room_length != 0)
            memcpy(room_copy, room, room_length);
        wish_by(by_session, &copy, &call, room_copy);
    }
    return wish_by(by_record, record, &call, room);
}

/* ---- Without a session ---- */

/* Writes the SAC of these wishes; answers how many octets it has. */
static size_t put_sac(uint8_t *octets, uint32_t wishes)
{
    size_t count = 0;
    for (uint32_t app = 1; app <= 4; app++)
        if ((wishes >> (app - 1) & 1) != 0)
            octets[5 + count++] = (uint8_t)(0x80 | app << 4);
    const uint8_t head[] = {0x85, 0x0D, 0x00, (uint8_t)(1 + count), 0x80};
    memcpy(octets, head, sizeof head);
    return count == 0 ? 0 : sizeof head + count;
}

struct tacit_written wish_sac(uint32_t wishes, uint8_t *room, size_t room_length)
{
    uint8_t sac[9];
    size_t length = put_sac(sac, wishes & 15);
    uint8_t wanted = wishes > 15 ? 10 : room_length < length ? 8 : 0;
    size_t written = wanted == 0 ? length : 0;
    uint8_t *lent = lend(ROOM, room, room_length);
    struct tacit_written answer = tacit_wish_sac(wishes, lent, room_length);
    CHECK(answer.refusal == wanted && answer.written == written);
    CHECK(same(lent, sac, written) && margin_kept(ROOM, room_length));
    if (room_length > written)
        CHECK(same(lent + written, room + written, room_length - written));
    if (written != 0)
        memcpy(room, lent, written);
    return answer;
}

struct tacit_want is_wanted(uint32_t wishes, uint32_t kind)
{
    struct tacit_want answer = tacit_wanted(wishes, kind);
    bool disabled = false;
    for (uint32_t app = 1; app <= 4; app++)
        if (kind == kind_of(app) && (wishes >> (app - 1) & 1) != 0)
            disabled = true;
    CHECK(answer.refusal == (wishes > 15 ? 10 : kind > 9 ? 6 : 0));
    CHECK(answer.wanted == (answer.refusal == 0 && !disabled ? 1 : 0));
    return answer;
}
