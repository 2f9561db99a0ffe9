/*
 * The moves between the two kinds of record, each in a wrapper that works out what it must
 * come to.
 */
#include "harness.h"

#include <string.h>

/* ---- Records of kind 1, without the library but for what is sound ---- */

struct record kind2_for(const struct record *kind1)
{
    struct record kind2 = {{22, 0, 2, 0}, TACIT_RECORD_LENGTH};
    memcpy(kind2.octets + 4, kind1->octets + 4, TACIT_KIND1_LENGTH - 4);
    return kind2;
}

struct record kind1_for(const struct record *kind2)
{
    struct record kind1 = {{20, 0, 1, 0}, TACIT_KIND1_LENGTH};
    memcpy(kind1.octets + 4, kind2->octets + 4, TACIT_KIND1_LENGTH - 4);
    return kind1;
}

bool sound_kind1(const struct record *kind1)
{
    static const uint8_t head[4] = {20, 0, 1, 0};
    const struct record kind2 = kind2_for(kind1);
    return kind1->length == TACIT_KIND1_LENGTH && same(kind1->octets, head, sizeof head) &&
           sound(&kind2);
}

uint32_t lost_by_move(struct tacit_session session)
{
    const uint32_t mldp = TACIT_ALL_KINDS & ~FREE_KINDS;
    if (session.state != TACIT_OPEN)
        return 0;
    if ((session.flags & TACIT_FLAG_IN_FORCE) == 0)
        return mldp;
    uint32_t lost = 0;
    if ((used(session) & (TACIT_APP_SET(3) | TACIT_APP_SET(11))) != 0)
        lost |= mldp;
    if ((used(session) & TACIT_APP_SET(8)) != 0)
        lost |= session.protects & mldp;
    return lost;
}

/* ---- The moves ---- */

/* What was lost are the kinds that the session would permit if both ends held everything. */
static void check_lost(uint32_t lost, const struct record *moved)
{
    struct record holding_all = *moved;
    CHECK(kinds(moved) == (kinds(moved) & FREE_KINDS));
    if (state(moved) != TACIT_OPEN) {
        CHECK(lost == 0);
        return;
    }
    holding_all.octets[22] = holding_all.octets[23] = TACIT_ALL_CAPABILITIES;
    CHECK(lost == (kinds(&holding_all) & ~kinds(moved)));
}

/* The room is as it was, or exactly this record; nothing beside it is touched. */
static void check_room(const uint8_t *lent, const struct record *found, uint8_t refusal,
                       const struct record *wanted)
{
    const struct record *after = refusal == 0 ? wanted : found;
    CHECK(after->length == found->length && same(lent, after->octets, found->length));
    CHECK(margin_kept(ROOM, found->length));
}

struct tacit_moved forward(const struct record *kind1, struct record *room)
{
    const struct record wanted = kind2_for(kind1);
    bool right = sound_kind1(kind1) && room->length == TACIT_RECORD_LENGTH;
    uint8_t *lent = lend(RECORD, kind1->octets, kind1->length);
    uint8_t *lent_room = lend(ROOM, room->octets, room->length);
    struct tacit_moved moved = tacit_forward(lent, kind1->length, lent_room, room->length);
    CHECK(same(lent, kind1->octets, kind1->length) && margin_kept(RECORD, kind1->length));
    CHECK(moved.refusal == (right ? 0 : 10));
    CHECK(moved.lost == (right ? lost_by_move(session_in(&wanted)) : 0));
    check_room(lent_room, room, moved.refusal, &wanted);
    if (moved.refusal != 0)
        return moved;
    memcpy(room->octets, lent_room, room->length);
    check_lost(moved.lost, room);
    return moved;
}

uint8_t back(const struct record *kind2, struct record *room)
{
    const struct record wanted = kind1_for(kind2);
    bool right = sound(kind2) && room->length == TACIT_KIND1_LENGTH;
    bool holds = (kind2->octets[22] | kind2->octets[23]) != 0;
    uint8_t *lent = lend(RECORD, kind2->octets, kind2->length);
    uint8_t *lent_room = lend(ROOM, room->octets, room->length);
    uint8_t refusal = tacit_back(lent, kind2->length, lent_room, room->length);
    CHECK(same(lent, kind2->octets, kind2->length) && margin_kept(RECORD, kind2->length));
    CHECK(refusal == (!right ? 10 : holds ? 13 : 0));
    check_room(lent_room, room, refusal, &wanted);
    if (refusal == 0)
        memcpy(room->octets, lent_room, room->length);
    return refusal;
}
