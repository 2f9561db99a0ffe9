/*
 * plain.c - the calls of the library in plain C, without a proof
 *
 * What a call takes is measured by this one (bench), and the comparison has it for a
 * third opinion (tests/compare). The rules are those of document 01, of the requests
 * L1 to L5 and of tacit.h; no code is shared with the library or the second program.
 */
#include "calls.h"

DECLARE_CALLS(plain)

/* ---------------------------------------------------------------------- */
/* Numbers in octets                                                       */
/* ---------------------------------------------------------------------- */

/* In areas and messages the most significant octet stands first. */
static inline unsigned get_be16(const uint8_t *from)
{
    return (unsigned)from[0] << 8 | from[1];
}

static inline void put_be16(uint8_t *to, unsigned number)
{
    to[0] = (uint8_t)(number >> 8);
    to[1] = (uint8_t)number;
}

static inline void put_be32(uint8_t *to, uint32_t number)
{
    to[0] = (uint8_t)(number >> 24);
    to[1] = (uint8_t)(number >> 16);
    to[2] = (uint8_t)(number >> 8);
    to[3] = (uint8_t)number;
}

/* ---------------------------------------------------------------------- */
/* Applications and kinds                                                  */
/* ---------------------------------------------------------------------- */

enum { SAC_APPS = 4 };

static inline bool is_application(uint32_t ta_id)
{
    return ta_id >= 1 && ta_id <= TACIT_APPLICATIONS;
}

static inline bool is_sac_app(uint32_t app)
{
    return app >= 1 && app <= SAC_APPS;
}

/* The applications that open a kind. */
enum {
    FOR_IPV4 = TACIT_APP_SET(TACIT_APP_LDPV4_TUNNELING) |
               TACIT_APP_SET(TACIT_APP_LDPV4_REMOTE_LFA) |
               TACIT_APP_SET(TACIT_APP_IPV4_INTRA_AREA),
    FOR_IPV6 = TACIT_APP_SET(TACIT_APP_LDPV6_TUNNELING) |
               TACIT_APP_SET(TACIT_APP_LDPV6_REMOTE_LFA) |
               TACIT_APP_SET(TACIT_APP_IPV6_INTRA_AREA),
    FOR_MLDP = TACIT_APP_SET(TACIT_APP_MLDP_TUNNELING) |
               TACIT_APP_SET(TACIT_APP_MLDP_NODE_PROTECTION),
    FOR_PWID = TACIT_APP_SET(TACIT_APP_FEC128_PW),
    FOR_GENERALIZED_PWID = TACIT_APP_SET(TACIT_APP_FEC129_PW),
    FOR_P2MP_PW = TACIT_APP_SET(TACIT_APP_P2MP_PW),
    FOR_PROTECTED = TACIT_APP_SET(TACIT_APP_SESSION_PROTECTION)
};

/* The same by kind, without Session Protection. */
static const uint16_t applications_for[TACIT_KINDS] = {
    [TACIT_KIND_IPV4_PREFIX] = FOR_IPV4,
    [TACIT_KIND_IPV6_PREFIX] = FOR_IPV6,
    [TACIT_KIND_P2MP] = FOR_MLDP,
    [TACIT_KIND_MP2MP_UP] = FOR_MLDP,
    [TACIT_KIND_MP2MP_DOWN] = FOR_MLDP,
    [TACIT_KIND_HSMP_DOWNSTREAM] = FOR_MLDP,
    [TACIT_KIND_HSMP_UPSTREAM] = FOR_MLDP,
    [TACIT_KIND_PWID] = FOR_PWID,
    [TACIT_KIND_GENERALIZED_PWID] = FOR_GENERALIZED_PWID,
    [TACIT_KIND_P2MP_PW_UPSTREAM] = FOR_P2MP_PW,
};

/* The kinds that at least one of these applications opens. */
static inline unsigned opened_by(unsigned applications, unsigned protects)
{
    unsigned kinds = 0;
    if (applications & FOR_IPV4)
        kinds |= TACIT_KIND_SET(TACIT_KIND_IPV4_PREFIX);
    if (applications & FOR_IPV6)
        kinds |= TACIT_KIND_SET(TACIT_KIND_IPV6_PREFIX);
    if (applications & FOR_MLDP)
        kinds |= 0x007C; /* 2 to 6 */
    if (applications & FOR_PWID)
        kinds |= TACIT_KIND_SET(TACIT_KIND_PWID);
    if (applications & FOR_GENERALIZED_PWID)
        kinds |= TACIT_KIND_SET(TACIT_KIND_GENERALIZED_PWID);
    if (applications & FOR_P2MP_PW)
        kinds |= TACIT_KIND_SET(TACIT_KIND_P2MP_PW_UPSTREAM);
    if (applications & FOR_PROTECTED)
        kinds |= protects;
    return kinds;
}

/* Does one of these applications open this kind? */
static inline bool opens(unsigned applications, unsigned kind, unsigned protects)
{
    return (applications & applications_for[kind]) != 0 ||
           ((applications & FOR_PROTECTED) != 0 && (protects >> kind & 1) != 0);
}

/* The kinds that these SAC Apps control: 0 and 1 for 1 and 2, 7 and 8 for 3 and 4. */
static inline unsigned controlled_by(unsigned apps)
{
    return (apps & 0x03) | (apps & 0x0C) << 5;
}

/* The capability that a kind needs, as a set: empty for most. */
static const uint8_t needed_for[TACIT_KINDS] = {
    [TACIT_KIND_P2MP] = TACIT_CAPABILITY_P2MP,
    [TACIT_KIND_MP2MP_UP] = TACIT_CAPABILITY_MP2MP,
    [TACIT_KIND_MP2MP_DOWN] = TACIT_CAPABILITY_MP2MP,
    [TACIT_KIND_HSMP_DOWNSTREAM] = TACIT_CAPABILITY_HSMP,
    [TACIT_KIND_HSMP_UPSTREAM] = TACIT_CAPABILITY_HSMP,
};

/* The same by capability: the kinds that need none, or one of these. */
static inline unsigned allowed_by(unsigned capabilities)
{
    unsigned kinds = 0x0383; /* all but 2 to 6 */
    if (capabilities & TACIT_CAPABILITY_P2MP)
        kinds |= 0x0004;
    if (capabilities & TACIT_CAPABILITY_MP2MP)
        kinds |= 0x0018;
    if (capabilities & TACIT_CAPABILITY_HSMP)
        kinds |= 0x0060;
    return kinds;
}

/* ---------------------------------------------------------------------- */
/* Sessions                                                                */
/* ---------------------------------------------------------------------- */

/* Flags that go together. */
enum {
    GOES_ON_MISMATCH = TACIT_FLAG_INITIATING | TACIT_FLAG_ACTIVE | TACIT_FLAG_DROPS,
    IN_OPEN_ALONE = TACIT_FLAG_IN_FORCE | TACIT_FLAG_PEER_DYNAMIC,
    SPARE = 0x80
};

/* The state that a mismatch leads to. */
static inline uint8_t state_after_mismatch(unsigned flags)
{
    if ((flags & GOES_ON_MISMATCH) == GOES_ON_MISMATCH)
        return TACIT_GONE;
    return flags & TACIT_FLAG_ACTIVE ? TACIT_HELD : TACIT_READY;
}

static inline bool has_spare_bits(const struct tacit_session *session)
{
    return (session->flags & SPARE) != 0 || (session->disabled & ~TACIT_ALL_SAC) != 0 ||
           ((session->enabled | session->listed) & ~TACIT_ALL_APPS) != 0 ||
           (session->protects & ~TACIT_ALL_KINDS) != 0 ||
           ((session->ours | session->theirs) & ~TACIT_ALL_CAPABILITIES) != 0;
}

static inline bool is_sound(const struct tacit_session *session)
{
    unsigned flags = session->flags;
    if (has_spare_bits(session))
        return false;
    if (session->hello != 0 && !(flags & TACIT_FLAG_HELLO_RECORDED))
        return false;
    if (session->state == TACIT_OPEN) {
        if (!(flags & TACIT_FLAG_IN_FORCE))
            return session->listed == 0;
        return (flags & TACIT_FLAG_USES_TAC) && (session->enabled & session->listed);
    }
    if ((flags & IN_OPEN_ALONE) || session->listed != 0 || session->disabled != 0 ||
        session->theirs != 0)
        return false;
    if (session->state == TACIT_READY)
        return true;
    if (session->state == TACIT_GONE && (flags & TACIT_FLAG_HELLO_RECORDED))
        return false;
    return session->state == state_after_mismatch(flags);
}

/* The applications that a sound session uses: nothing is listed unless it is in force. */
static inline unsigned used(const struct tacit_session *session)
{
    return session->enabled & session->listed;
}

/* The kinds that a session permits as far as no capability is asked for. */
static inline unsigned permitted_but_for_capabilities(const struct tacit_session *session)
{
    if (session->state != TACIT_OPEN)
        return 0;
    unsigned kinds = TACIT_ALL_KINDS;
    if (session->flags & TACIT_FLAG_IN_FORCE)
        kinds = opened_by(used(session), session->protects);
    return kinds & ~controlled_by(session->disabled);
}

static inline unsigned permitted_kinds(const struct tacit_session *session)
{
    return permitted_but_for_capabilities(session) & allowed_by(session->ours & session->theirs);
}

static inline uint8_t why_not(const struct tacit_session *session, unsigned kind)
{
    if (session->state != TACIT_OPEN)
        return TACIT_NOT_OPEN;
    if (controlled_by(session->disabled) >> kind & 1)
        return TACIT_DISABLED_BY_PEER;
    if ((session->flags & TACIT_FLAG_IN_FORCE) && !opens(used(session), kind, session->protects))
        return opens(session->enabled, kind, session->protects) ? TACIT_NOT_LISTED
                                                                : TACIT_NOT_ENABLED;
    if (needed_for[kind] & ~session->ours)
        return TACIT_CAPABILITY_NOT_OURS;
    return needed_for[kind] & ~session->theirs ? TACIT_CAPABILITY_NOT_THEIRS : TACIT_PERMITTED;
}

static inline uint16_t retry_interval(const struct tacit_session *session)
{
    return session->state == TACIT_HELD ? 65535 : 0;
}

/* ---------------------------------------------------------------------- */
/* The record                                                              */
/* ---------------------------------------------------------------------- */

/* Its numbers have the least significant octet first, as this machine's have. */
_Static_assert(__BYTE_ORDER__ == __ORDER_LITTLE_ENDIAN__, "numbers are copied");

/* How many octets follow these two, and the kind of record. */
static const uint8_t record_head[4] = {22, 0, 2, 0}, kind1_head[4] = {20, 0, 1, 0};

/* Reads what both kinds have, octets 4 to 21; false if another head stands before it. */
static inline bool read_common(struct tacit_session *session, const uint8_t *record,
                               const uint8_t *head)
{
    if (memcmp(record, head, sizeof record_head) != 0 || record[13] != 0)
        return false;
    session->state = record[4];
    session->flags = record[5];
    memcpy(&session->enabled, record + 6, 2);
    memcpy(&session->listed, record + 8, 2);
    memcpy(&session->protects, record + 10, 2);
    session->disabled = record[12];
    memcpy(&session->hello, record + 14, 4);
    memcpy(&session->next, record + 18, 4);
    return true;
}

/* Reads a record; false if it is not sound. */
static inline bool read_record(struct tacit_session *session, const uint8_t *record,
                               size_t record_len)
{
    if (record_len != TACIT_RECORD_LENGTH || !read_common(session, record, record_head))
        return false;
    session->ours = record[22];
    session->theirs = record[23];
    return is_sound(session);
}

/* Reads a record of kind 1, which has no capabilities; false if it is not sound. */
static inline bool read_kind1(struct tacit_session *session, const uint8_t *record,
                              size_t record_len)
{
    if (record_len != TACIT_KIND1_LENGTH || !read_common(session, record, kind1_head))
        return false;
    session->ours = 0;
    session->theirs = 0;
    return is_sound(session);
}

static inline void update_next(uint8_t *record, const struct tacit_session *session)
{
    memcpy(record + 18, &session->next, 4);
}

/* Writes what an event may change. */
static inline void update_record(uint8_t *record, const struct tacit_session *session)
{
    record[4] = session->state;
    record[5] = session->flags;
    memcpy(record + 6, &session->enabled, 2);
    memcpy(record + 8, &session->listed, 2);
    record[12] = session->disabled;
    memcpy(record + 14, &session->hello, 4);
    update_next(record, session);
    record[23] = session->theirs;
}

static inline void write_record(uint8_t *record, const struct tacit_session *session)
{
    memcpy(record, record_head, sizeof record_head);
    memcpy(record + 10, &session->protects, 2);
    record[13] = 0;
    record[22] = session->ours;
    update_record(record, session);
}

/* ---------------------------------------------------------------------- */
/* Areas                                                                   */
/* ---------------------------------------------------------------------- */

enum { HEAD = 4 }; /* octets of a TLV before its value */
enum {
    TYPE_TAC = 0x050F,
    TYPE_SAC = 0x050D,
    TYPE_DYNAMIC = 0x0506,
    TYPE_P2MP = 0x0508,
    TYPE_MP2MP = 0x0509,
    TYPE_HSMP = 0x0902
};

/* Each of these is for one TLV, and hands back the refusal. */
static inline uint8_t add_tac(struct tacit_reading *reading, size_t start, size_t length)
{
    if (reading->tac.length != 0)
        return TACIT_REFUSED_REPEATED;
    if (length % 4 != 1)
        return TACIT_REFUSED_LENGTH;
    reading->tac = (struct tacit_part){(uint16_t)start, (uint16_t)length};
    return TACIT_NOT_REFUSED;
}

static inline uint8_t add_sac(struct tacit_reading *reading, size_t start, size_t length)
{
    if (reading->sac.length != 0)
        return TACIT_REFUSED_REPEATED;
    if (length < 2)
        return TACIT_REFUSED_LENGTH;
    reading->sac = (struct tacit_part){(uint16_t)start, (uint16_t)length};
    return TACIT_NOT_REFUSED;
}

static inline uint8_t add_dynamic(struct tacit_reading *reading, size_t length)
{
    if (reading->dynamic)
        return TACIT_REFUSED_REPEATED;
    if (length != 1)
        return TACIT_REFUSED_LENGTH;
    reading->dynamic = 1;
    return TACIT_NOT_REFUSED;
}

/* Its value is one octet, of which S, the top bit, is read. */
static inline uint8_t add_capability(struct tacit_reading *reading, uint8_t capability,
                                     const uint8_t *value, size_t length)
{
    if (reading->capabilities & capability)
        return TACIT_REFUSED_REPEATED;
    if (length != 1)
        return TACIT_REFUSED_LENGTH;
    reading->capabilities |= capability;
    if (*value & 0x80)
        reading->holding |= capability;
    return TACIT_NOT_REFUSED;
}

/* A type that is not read: U is set, or it lies among those of capabilities. */
static inline uint8_t pass_over(unsigned type)
{
    return (type & 0x8000) || (type & 0x3F00) == 0x0500 ? TACIT_NOT_REFUSED : TACIT_REFUSED_TYPE;
}

/* Reads an area into an empty reading, and hands back the refusal. */
static uint8_t read_area(struct tacit_reading *reading, const uint8_t *area, size_t area_len)
{
    if (area_len > TACIT_AREA_MOST)
        return TACIT_REFUSED_AREA;
    const uint8_t *tlv = area;
    size_t left = area_len;
    while (left > 0) {
        if (left < HEAD)
            return TACIT_REFUSED_CUT_SHORT;
        unsigned type = get_be16(tlv);
        size_t length = get_be16(tlv + 2);
        left -= HEAD;
        if (length > left)
            return TACIT_REFUSED_CUT_SHORT;
        uint8_t refusal = TACIT_NOT_REFUSED;
        switch (type & 0x3FFF) {
        case TYPE_TAC: refusal = add_tac(reading, area_len - left, length); break;
        case TYPE_SAC: refusal = add_sac(reading, area_len - left, length); break;
        case TYPE_DYNAMIC: refusal = add_dynamic(reading, length); break;
        case TYPE_P2MP:
            refusal = add_capability(reading, TACIT_CAPABILITY_P2MP, tlv + HEAD, length);
            break;
        case TYPE_MP2MP:
            refusal = add_capability(reading, TACIT_CAPABILITY_MP2MP, tlv + HEAD, length);
            break;
        case TYPE_HSMP:
            refusal = add_capability(reading, TACIT_CAPABILITY_HSMP, tlv + HEAD, length);
            break;
        default: refusal = pass_over(type); break;
        }
        if (refusal != TACIT_NOT_REFUSED)
            return refusal;
        left -= length;
        tlv += HEAD + length;
    }
    return TACIT_NOT_REFUSED;
}

/* ---------------------------------------------------------------------- */
/* Lists                                                                   */
/* ---------------------------------------------------------------------- */

/* Of the elements of a TAC those count that are known and whose TA-Id was not met before. */
static inline bool counts(unsigned ta_id, unsigned met)
{
    return is_application(ta_id) && (met & TACIT_APP_SET(ta_id)) == 0;
}

/* The applications that the TAC of an Initialization names, whatever S and E are. */
static unsigned named_by_tac(const uint8_t *tac, size_t length)
{
    unsigned named = 0;
    for (size_t at = 1; at < length; at += 4) {
        unsigned ta_id = get_be16(tac + at);
        if (counts(ta_id, named))
            named |= TACIT_APP_SET(ta_id);
    }
    return named;
}

/* The list after the elements of a TAC in a Capability message. */
static unsigned changed_by_tac(unsigned listed, const uint8_t *tac, size_t length)
{
    unsigned met = 0;
    for (size_t at = 1; at < length; at += 4) {
        unsigned ta_id = get_be16(tac + at);
        if (!counts(ta_id, met))
            continue;
        met |= TACIT_APP_SET(ta_id);
        if (tac[at + 2] & 0x80)
            listed |= TACIT_APP_SET(ta_id);
        else
            listed &= ~TACIT_APP_SET(ta_id);
    }
    return listed;
}

/* The set of a SAC element's App: empty if it controls nothing. */
static inline unsigned app_at(const uint8_t *element)
{
    unsigned app = *element >> 4 & 7u;
    return is_sac_app(app) ? TACIT_SAC_SET(app) : 0;
}

/* The Apps that the SAC of an Initialization disables: D = 0 does nothing there. */
static unsigned disabled_by_sac(const uint8_t *sac, size_t length)
{
    unsigned disabled = 0;
    for (size_t at = 1; at < length; at++)
        if (sac[at] & 0x80)
            disabled |= app_at(sac + at);
    return disabled;
}

/* The disabled Apps after the SAC of a Capability message. */
static unsigned changed_by_sac(unsigned disabled, const uint8_t *sac, size_t length)
{
    for (size_t at = 1; at < length; at++) {
        if (sac[at] & 0x80)
            disabled |= app_at(sac + at);
        else
            disabled &= ~app_at(sac + at);
    }
    return disabled;
}

/* ---------------------------------------------------------------------- */
/* Answers                                                                 */
/* ---------------------------------------------------------------------- */

static inline struct tacit_answer refused(uint8_t refusal)
{
    return (struct tacit_answer){.refusal = refusal};
}

/* Of an event that changes no permission. */
static inline struct tacit_answer came_to(uint8_t outcome)
{
    return (struct tacit_answer){.outcome = outcome};
}

/* Of an event before and after which these kinds are permitted. */
static inline struct tacit_answer moved(uint8_t outcome, unsigned before, unsigned after)
{
    return (struct tacit_answer){.outcome = outcome,
                                 .lost = (uint16_t)(before & ~after),
                                 .gained = (uint16_t)(after & ~before)};
}

/* ---------------------------------------------------------------------- */
/* Events                                                                  */
/* ---------------------------------------------------------------------- */

/*
 * Each event is given a sound session and makes the session after it of it. Where it is
 * refused, or comes to Unchanged, the session is left alone.
 */

/* Forgets what is known of the peer in Open alone. */
static inline void leave(struct tacit_session *session, uint8_t state)
{
    session->state = state;
    session->flags &= (uint8_t)~IN_OPEN_ALONE;
    session->listed = 0;
    session->disabled = 0;
    session->theirs = 0;
}

static inline void leave_by_mismatch(struct tacit_session *session)
{
    leave(session, state_after_mismatch(session->flags));
    if (session->state == TACIT_GONE) {
        session->flags &= (uint8_t)~TACIT_FLAG_HELLO_RECORDED;
        session->hello = 0;
    }
}

/* In Ready nothing is listed or disabled, so that what is not set here is empty. */
static inline struct tacit_answer initialization(struct tacit_session *session, const uint8_t *area,
                                                 size_t area_len)
{
    struct tacit_reading reading = {0};
    if (session->state != TACIT_READY)
        return refused(TACIT_REFUSED_STATE);
    uint8_t refusal = read_area(&reading, area, area_len);
    if (refusal != TACIT_NOT_REFUSED)
        return refused(refusal);
    if ((session->flags & TACIT_FLAG_USES_TAC) && reading.tac.length != 0) {
        unsigned listed = named_by_tac(area + reading.tac.start, reading.tac.length);
        if ((session->enabled & listed) == 0) {
            leave_by_mismatch(session);
            return came_to(TACIT_MISMATCH);
        }
        session->listed = (uint16_t)listed;
        session->flags |= TACIT_FLAG_IN_FORCE;
    }
    if (reading.sac.length != 0)
        session->disabled = (uint8_t)disabled_by_sac(area + reading.sac.start, reading.sac.length);
    if (reading.dynamic)
        session->flags |= TACIT_FLAG_PEER_DYNAMIC;
    session->theirs = reading.capabilities;
    session->state = TACIT_OPEN;
    return moved(TACIT_DONE, 0, permitted_kinds(session));
}

/* What the TAC of a Capability message makes of list and force; out of force the list is empty. */
static inline void apply_tac(struct tacit_session *session, const uint8_t *tac, size_t length)
{
    if (tac[0] & 0x80) {
        session->listed = (uint16_t)changed_by_tac(session->listed, tac, length);
        session->flags |= TACIT_FLAG_IN_FORCE;
    } else {
        session->listed = 0;
        session->flags &= (uint8_t)~TACIT_FLAG_IN_FORCE;
    }
}

/* Is negotiation in force without an application that is common to both ends? */
static inline bool has_none_in_common(const struct tacit_session *session)
{
    return (session->flags & TACIT_FLAG_IN_FORCE) && used(session) == 0;
}

static inline struct tacit_answer capability(struct tacit_session *session, const uint8_t *area,
                                             size_t area_len)
{
    struct tacit_reading reading = {0};
    if (session->state != TACIT_OPEN)
        return refused(TACIT_REFUSED_STATE);
    uint8_t refusal = read_area(&reading, area, area_len);
    if (refusal != TACIT_NOT_REFUSED)
        return refused(refusal);
    unsigned before = permitted_kinds(session);
    if ((session->flags & TACIT_FLAG_USES_TAC) && reading.tac.length != 0)
        apply_tac(session, area + reading.tac.start, reading.tac.length);
    if (has_none_in_common(session)) {
        leave_by_mismatch(session);
        return moved(TACIT_MISMATCH, before, 0);
    }
    if (reading.sac.length != 0)
        session->disabled = (uint8_t)changed_by_sac(session->disabled, area + reading.sac.start,
                                                    reading.sac.length);
    session->theirs = (uint8_t)((session->theirs & ~reading.capabilities) | reading.holding);
    return moved(TACIT_DONE, before, permitted_kinds(session));
}

/* A TLV of a capability up to its first element, with S = 1 and so many octets of elements. */
static inline void begin_tlv(uint8_t *to, unsigned type, unsigned octets)
{
    put_be16(to, 0x8000 | type);
    put_be16(to + 2, 1 + octets);
    to[HEAD] = 0x80;
}

/* A Capability message of this length up to its area. */
static inline void begin_message(uint8_t *room, unsigned length, uint32_t number)
{
    put_be16(room, 0x0202);
    put_be16(room + 2, length - HEAD);
    put_be32(room + 4, number);
}

/* A Capability message with a TAC of one element. */
static void write_change(uint8_t *room, uint32_t number, uint32_t ta_id, bool on)
{
    begin_message(room, TACIT_MESSAGE_LENGTH, number);
    begin_tlv(room + TACIT_MESSAGE_AREA, TYPE_TAC, 4);
    put_be16(room + 13, ta_id);
    put_be16(room + 15, on ? 0x8000 : 0);
}

static inline struct tacit_answer local_change(struct tacit_session *session, uint32_t ta_id,
                                               bool on, uint8_t *room, size_t room_len)
{
    if (!is_application(ta_id))
        return refused(TACIT_REFUSED_NUMBER);
    unsigned enabled = session->enabled & ~TACIT_APP_SET(ta_id);
    if (on)
        enabled |= TACIT_APP_SET(ta_id);
    if (enabled == session->enabled)
        return came_to(TACIT_UNCHANGED);
    if (session->state != TACIT_OPEN || !(session->flags & TACIT_FLAG_USES_TAC)) {
        session->enabled = (uint16_t)enabled;
        if (session->state == TACIT_HELD)
            session->state = TACIT_READY;
        return came_to(TACIT_DONE);
    }
    if (!(session->flags & TACIT_FLAG_PEER_DYNAMIC))
        return refused(TACIT_REFUSED_NOT_DYNAMIC);
    if (room_len < TACIT_MESSAGE_LENGTH)
        return refused(TACIT_REFUSED_ROOM);
    unsigned before = permitted_kinds(session);
    session->enabled = (uint16_t)enabled;
    if (has_none_in_common(session)) {
        leave_by_mismatch(session);
        return moved(TACIT_MISMATCH, before, 0);
    }
    struct tacit_answer answer = moved(TACIT_DONE, before, permitted_kinds(session));
    answer.written = TACIT_MESSAGE_LENGTH;
    write_change(room, session->next++, ta_id, on);
    return answer;
}

static inline uint8_t sac_element(uint32_t app, bool disable)
{
    return (uint8_t)((disable ? 0x80 : 0) | app << 4);
}

/* A Capability message with a SAC of one element. */
static inline void write_wish(uint8_t *room, uint32_t number, uint32_t app, bool disable)
{
    begin_message(room, TACIT_WISH_LENGTH, number);
    begin_tlv(room + TACIT_MESSAGE_AREA, TYPE_SAC, 1);
    room[13] = sac_element(app, disable);
}

/* The wishes too are left alone unless it is done. */
static inline struct tacit_answer wish(struct tacit_session *session, uint32_t *wishes,
                                       uint32_t app, bool disable, uint8_t *room, size_t room_len)
{
    if ((*wishes & ~TACIT_ALL_SAC) != 0)
        return refused(TACIT_REFUSED_NOT_SOUND);
    if (!is_sac_app(app))
        return refused(TACIT_REFUSED_APP);
    if (((*wishes & TACIT_SAC_SET(app)) != 0) == disable)
        return came_to(TACIT_UNCHANGED);
    if (session->state != TACIT_OPEN)
        return refused(TACIT_REFUSED_STATE);
    if (!(session->flags & TACIT_FLAG_PEER_DYNAMIC))
        return refused(TACIT_REFUSED_NOT_DYNAMIC);
    if (room_len < TACIT_WISH_LENGTH)
        return refused(TACIT_REFUSED_ROOM);
    *wishes ^= TACIT_SAC_SET(app);
    write_wish(room, session->next++, app, disable);
    return (struct tacit_answer){.outcome = TACIT_DONE, .written = TACIT_WISH_LENGTH};
}

static inline struct tacit_answer mismatch(struct tacit_session *session)
{
    if (session->state != TACIT_READY && session->state != TACIT_OPEN)
        return refused(TACIT_REFUSED_STATE);
    unsigned before = permitted_kinds(session);
    leave_by_mismatch(session);
    return moved(TACIT_MISMATCH, before, 0);
}

static inline struct tacit_answer hello(struct tacit_session *session, uint32_t number)
{
    /* In Gone none is recorded, and in Held the first one changes no state. */
    bool recorded = session->flags & TACIT_FLAG_HELLO_RECORDED;
    if (recorded && number <= session->hello)
        return came_to(TACIT_UNCHANGED);
    if (session->state == TACIT_GONE || (recorded && session->state == TACIT_HELD))
        session->state = TACIT_READY;
    session->flags |= TACIT_FLAG_HELLO_RECORDED;
    session->hello = number;
    return came_to(TACIT_DONE);
}

static inline struct tacit_answer closed(struct tacit_session *session)
{
    if (session->state != TACIT_OPEN)
        return refused(TACIT_REFUSED_STATE);
    unsigned before = permitted_kinds(session);
    leave(session, TACIT_READY);
    return moved(TACIT_DONE, before, 0);
}

/* ---------------------------------------------------------------------- */
/* Calls on the record of one session                                      */
/* ---------------------------------------------------------------------- */

struct tacit_reading plain_read(const uint8_t *area, size_t area_len)
{
    struct tacit_reading reading = {0};
    uint8_t refusal = read_area(&reading, area, area_len);
    return refusal == TACIT_NOT_REFUSED ? reading : (struct tacit_reading){.refusal = refusal};
}

uint8_t plain_create(uint8_t *record, size_t record_len, struct tacit_settings settings)
{
    if (record_len != TACIT_RECORD_LENGTH)
        return TACIT_REFUSED_NOT_SOUND;
    if ((settings.protected_kinds & ~TACIT_ALL_KINDS) != 0 ||
        (settings.enabled & ~TACIT_ALL_APPS) != 0 || (settings.wishes & ~TACIT_ALL_SAC) != 0 ||
        (settings.capabilities & ~TACIT_ALL_CAPABILITIES) != 0)
        return TACIT_REFUSED_NUMBER;
    struct tacit_session session = {
        .state = TACIT_READY,
        .flags = (uint8_t)((settings.initiating ? TACIT_FLAG_INITIATING : 0) |
                           (settings.active ? TACIT_FLAG_ACTIVE : 0) |
                           (settings.uses_tac ? TACIT_FLAG_USES_TAC : 0) |
                           (settings.drops ? TACIT_FLAG_DROPS : 0)),
        .enabled = (uint16_t)settings.enabled,
        .protects = (uint16_t)settings.protected_kinds,
        .ours = (uint8_t)settings.capabilities,
        .next = settings.first_number,
    };
    write_record(record, &session);
    return TACIT_NOT_REFUSED;
}

/* Puts down what an event made of a session, if it made anything of it. */
static inline struct tacit_answer stored(uint8_t *record, const struct tacit_session *session,
                                         struct tacit_answer answer)
{
    if (answer.refusal == TACIT_NOT_REFUSED && answer.outcome != TACIT_UNCHANGED)
        update_record(record, session);
    return answer;
}

struct tacit_answer plain_initialization(uint8_t *record, size_t record_len, const uint8_t *area,
                                         size_t area_len)
{
    struct tacit_session session;
    if (!read_record(&session, record, record_len))
        return refused(TACIT_REFUSED_NOT_SOUND);
    return stored(record, &session, initialization(&session, area, area_len));
}

struct tacit_answer plain_capability(uint8_t *record, size_t record_len, const uint8_t *area,
                                     size_t area_len)
{
    struct tacit_session session;
    if (!read_record(&session, record, record_len))
        return refused(TACIT_REFUSED_NOT_SOUND);
    return stored(record, &session, capability(&session, area, area_len));
}

struct tacit_answer plain_local_change(uint8_t *record, size_t record_len, uint32_t ta_id, bool on,
                                       uint8_t *room, size_t room_len)
{
    struct tacit_session session;
    if (!read_record(&session, record, record_len))
        return refused(TACIT_REFUSED_NOT_SOUND);
    return stored(record, &session, local_change(&session, ta_id, on, room, room_len));
}

struct tacit_answer plain_mismatch(uint8_t *record, size_t record_len)
{
    struct tacit_session session;
    if (!read_record(&session, record, record_len))
        return refused(TACIT_REFUSED_NOT_SOUND);
    return stored(record, &session, mismatch(&session));
}

struct tacit_answer plain_hello(uint8_t *record, size_t record_len, uint32_t number)
{
    struct tacit_session session;
    if (!read_record(&session, record, record_len))
        return refused(TACIT_REFUSED_NOT_SOUND);
    return stored(record, &session, hello(&session, number));
}

struct tacit_answer plain_closed(uint8_t *record, size_t record_len)
{
    struct tacit_session session;
    if (!read_record(&session, record, record_len))
        return refused(TACIT_REFUSED_NOT_SOUND);
    return stored(record, &session, closed(&session));
}

struct tacit_permission plain_permitted(const uint8_t *record, size_t record_len, uint32_t kind)
{
    struct tacit_session session;
    if (!read_record(&session, record, record_len))
        return (struct tacit_permission){.refusal = TACIT_REFUSED_NOT_SOUND};
    if (kind >= TACIT_KINDS)
        return (struct tacit_permission){.refusal = TACIT_REFUSED_NUMBER};
    return (struct tacit_permission){.permitted = why_not(&session, kind) == TACIT_PERMITTED};
}

struct tacit_kinds plain_permitted_kinds(const uint8_t *record, size_t record_len)
{
    struct tacit_session session;
    if (!read_record(&session, record, record_len))
        return (struct tacit_kinds){.refusal = TACIT_REFUSED_NOT_SOUND};
    return (struct tacit_kinds){.kinds = (uint16_t)permitted_kinds(&session)};
}

struct tacit_retry plain_retry_interval(const uint8_t *record, size_t record_len)
{
    struct tacit_session session;
    if (!read_record(&session, record, record_len))
        return (struct tacit_retry){.refusal = TACIT_REFUSED_NOT_SOUND};
    return (struct tacit_retry){.interval = retry_interval(&session)};
}

bool plain_sound(const uint8_t *record, size_t record_len)
{
    struct tacit_session session;
    return read_record(&session, record, record_len);
}

struct tacit_reason plain_why_not(const uint8_t *record, size_t record_len, uint32_t kind)
{
    struct tacit_session session;
    if (!read_record(&session, record, record_len))
        return (struct tacit_reason){.refusal = TACIT_REFUSED_NOT_SOUND};
    if (kind >= TACIT_KINDS)
        return (struct tacit_reason){.refusal = TACIT_REFUSED_NUMBER};
    return (struct tacit_reason){.reason = why_not(&session, kind)};
}

/* ---------------------------------------------------------------------- */
/* Records of kind 1                                                       */
/* ---------------------------------------------------------------------- */

/* The octets that both kinds have behind their heads. */
static inline void copy_common(uint8_t *to, const uint8_t *from, const uint8_t *head)
{
    memcpy(to, head, sizeof record_head);
    memcpy(to + 4, from + 4, TACIT_KIND1_LENGTH - 4);
}

struct tacit_moved plain_forward(const uint8_t *kind1, size_t kind1_len, uint8_t *kind2,
                                 size_t kind2_len)
{
    struct tacit_session session;
    if (!read_kind1(&session, kind1, kind1_len) || kind2_len != TACIT_RECORD_LENGTH)
        return (struct tacit_moved){.refusal = TACIT_REFUSED_NOT_SOUND};
    copy_common(kind2, kind1, record_head);
    kind2[22] = 0;
    kind2[23] = 0;
    unsigned before = permitted_but_for_capabilities(&session);
    return (struct tacit_moved){.lost = (uint16_t)(before & ~allowed_by(0))};
}

uint8_t plain_back(const uint8_t *kind2, size_t kind2_len, uint8_t *kind1, size_t kind1_len)
{
    struct tacit_session session;
    if (!read_record(&session, kind2, kind2_len) || kind1_len != TACIT_KIND1_LENGTH)
        return TACIT_REFUSED_NOT_SOUND;
    if ((session.ours | session.theirs) != 0)
        return TACIT_REFUSED_CAPABILITIES;
    copy_common(kind1, kind2, kind1_head);
    return TACIT_NOT_REFUSED;
}

/* ---------------------------------------------------------------------- */
/* Our wishes                                                              */
/* ---------------------------------------------------------------------- */

/* Of the record it is the message number alone that a wish changes. */
struct tacit_wished plain_wish(uint8_t *record, size_t record_len, uint32_t wishes, uint32_t app,
                               bool disable, uint8_t *room, size_t room_len)
{
    struct tacit_session session;
    if (!read_record(&session, record, record_len))
        return (struct tacit_wished){refused(TACIT_REFUSED_NOT_SOUND), wishes};
    struct tacit_answer answer = wish(&session, &wishes, app, disable, room, room_len);
    if (answer.written != 0)
        update_next(record, &session);
    return (struct tacit_wished){answer, wishes};
}

struct tacit_written plain_wish_sac(uint32_t wishes, uint8_t *room, size_t room_len)
{
    if ((wishes & ~TACIT_ALL_SAC) != 0)
        return (struct tacit_written){.refusal = TACIT_REFUSED_NOT_SOUND};
    if (wishes == 0)
        return (struct tacit_written){.written = 0};
    unsigned elements = (wishes & 1) + (wishes >> 1 & 1) + (wishes >> 2 & 1) + (wishes >> 3);
    if (room_len < HEAD + 1 + elements)
        return (struct tacit_written){.refusal = TACIT_REFUSED_ROOM};
    begin_tlv(room, TYPE_SAC, elements);
    uint8_t *next = room + HEAD + 1;
    for (unsigned app = 1; app <= SAC_APPS; app++)
        if (wishes & TACIT_SAC_SET(app))
            *next++ = sac_element(app, true);
    return (struct tacit_written){.written = (uint16_t)(HEAD + 1 + elements)};
}

struct tacit_want plain_wanted(uint32_t wishes, uint32_t kind)
{
    if ((wishes & ~TACIT_ALL_SAC) != 0)
        return (struct tacit_want){.refusal = TACIT_REFUSED_NOT_SOUND};
    if (kind >= TACIT_KINDS)
        return (struct tacit_want){.refusal = TACIT_REFUSED_NUMBER};
    return (struct tacit_want){.wanted = (controlled_by(wishes) >> kind & 1) == 0};
}

/* ---------------------------------------------------------------------- */
/* Calls for rows of sessions                                              */
/* ---------------------------------------------------------------------- */

struct tacit_loaded plain_load(const uint8_t *record, size_t record_len)
{
    struct tacit_loaded loaded = {0};
    if (!read_record(&loaded.session, record, record_len))
        return (struct tacit_loaded){TACIT_REFUSED_NOT_SOUND, {.state = TACIT_NO_STATE}};
    return loaded;
}

uint8_t plain_store(struct tacit_session session, uint8_t *record, size_t record_len)
{
    if (record_len != TACIT_RECORD_LENGTH || !is_sound(&session))
        return TACIT_REFUSED_NOT_SOUND;
    write_record(record, &session);
    return TACIT_NOT_REFUSED;
}

struct tacit_limits plain_no_limits(void)
{
    struct tacit_limits limits;
    memset(limits.of, TACIT_LIMIT_MOST, sizeof limits.of);
    return limits;
}

struct tacit_limited plain_set_limit(struct tacit_limits limits, uint32_t ta_id, uint32_t limit)
{
    struct tacit_limited limited = {TACIT_NOT_REFUSED, limits};
    if (!is_application(ta_id))
        limited.refusal = TACIT_REFUSED_NUMBER;
    else if (limit > TACIT_LIMIT_MOST)
        limited.refusal = TACIT_REFUSED_LIMIT;
    else
        limited.limits.of[ta_id - 1] = (uint8_t)limit;
    return limited;
}

struct tacit_kinds plain_session_kinds(struct tacit_session session)
{
    if (!is_sound(&session))
        return (struct tacit_kinds){.refusal = TACIT_REFUSED_NOT_SOUND};
    return (struct tacit_kinds){.kinds = (uint16_t)permitted_kinds(&session)};
}

struct tacit_retry plain_session_retry(struct tacit_session session)
{
    if (!is_sound(&session))
        return (struct tacit_retry){.refusal = TACIT_REFUSED_NOT_SOUND};
    return (struct tacit_retry){.interval = retry_interval(&session)};
}

struct tacit_wished plain_session_wish(struct tacit_session *session, uint32_t wishes,
                                       uint32_t app, bool disable, uint8_t *room, size_t room_len)
{
    if (!is_sound(session))
        return (struct tacit_wished){refused(TACIT_REFUSED_NOT_SOUND), wishes};
    struct tacit_answer answer = wish(session, &wishes, app, disable, room, room_len);
    return (struct tacit_wished){answer, wishes};
}

/* The refusal of a row, asked for its session with this number. */
static uint8_t refusal_of_row(const struct tacit_session *row, size_t row_len, size_t at)
{
    if (row_len > TACIT_ROW_MOST || at >= row_len)
        return TACIT_REFUSED_ROW;
    for (size_t i = 0; i < row_len; i++)
        if (!is_sound(&row[i]))
            return TACIT_REFUSED_NOT_SOUND;
    return TACIT_NOT_REFUSED;
}

/* How many sessions of the row use this application. */
static uint8_t users(const struct tacit_session *row, size_t row_len, unsigned application)
{
    uint8_t count = 0;
    for (size_t i = 0; i < row_len; i++)
        if (used(&row[i]) & application)
            count++;
    return count;
}

/*
 * Do as many sessions of the row use each of these applications as its limit allows?
 * A limit over 64 needs no care: it is not reached, as 64 is not.
 */
static bool all_at_limit(const struct tacit_session *row, size_t row_len,
                         const struct tacit_limits *limits, unsigned applications)
{
    for (unsigned i = 0; applications >> i != 0; i++)
        if ((applications >> i & 1) && users(row, row_len, 1u << i) < limits->of[i])
            return false;
    return true;
}

/* The session opens by itself first, and stays so only if the limits allow it. */
static struct tacit_answer limited_initialization(struct tacit_session *session,
                                                  const struct tacit_session *row, size_t row_len,
                                                  const struct tacit_limits *limits,
                                                  const uint8_t *area, size_t area_len)
{
    struct tacit_answer answer = initialization(session, area, area_len);
    if (answer.refusal != TACIT_NOT_REFUSED || used(session) == 0 ||
        !all_at_limit(row, row_len, limits, used(session)))
        return answer;
    leave_by_mismatch(session);
    return came_to(TACIT_AT_LIMIT);
}

struct tacit_count plain_row_count(const struct tacit_session *row, size_t row_len, uint32_t ta_id)
{
    uint8_t refusal = refusal_of_row(row, row_len, 0);
    if (refusal != TACIT_NOT_REFUSED)
        return (struct tacit_count){.refusal = refusal};
    if (!is_application(ta_id))
        return (struct tacit_count){.refusal = TACIT_REFUSED_NUMBER};
    return (struct tacit_count){.count = users(row, row_len, TACIT_APP_SET(ta_id))};
}

/* ---------------------------------------------------------------------- */
/* The totals of a row                                                     */
/* ---------------------------------------------------------------------- */

/* Moves the totals of these kinds by one; false if one would come to stand outside 0 to 64. */
static inline bool move_totals(struct tacit_totals *totals, unsigned kinds, unsigned by)
{
    for (; kinds != 0; kinds &= kinds - 1) {
        uint8_t *total = &totals->of[__builtin_ctz(kinds)];
        unsigned after = *total + by; /* below 0 it is a high number */
        if (after > TACIT_ROW_MOST)
            return false;
        *total = (uint8_t)after;
    }
    return true;
}

/* Brings the totals up to date after an event; false if they cannot be. */
static inline bool follow(struct tacit_totals *totals, unsigned lost, unsigned gained)
{
    return move_totals(totals, lost, -1u) && move_totals(totals, gained, 1);
}

struct tacit_total plain_kind_total(struct tacit_totals totals, uint32_t kind)
{
    if (kind >= TACIT_KINDS)
        return (struct tacit_total){.refusal = TACIT_REFUSED_NUMBER};
    return (struct tacit_total){.total = totals.of[kind]};
}

struct tacit_row_totals plain_recount(const struct tacit_session *row, size_t row_len)
{
    if (row_len == 0 || row_len > TACIT_ROW_MOST)
        return (struct tacit_row_totals){.refusal = TACIT_REFUSED_ROW};
    struct tacit_row_totals counted = {0};
    for (size_t i = 0; i < row_len; i++) {
        if (!is_sound(&row[i]))
            return (struct tacit_row_totals){.refusal = TACIT_REFUSED_NOT_SOUND};
        for (unsigned kinds = permitted_kinds(&row[i]); kinds != 0; kinds &= kinds - 1)
            counted.totals.of[__builtin_ctz(kinds)]++;
    }
    return counted;
}

/* ---------------------------------------------------------------------- */
/* Events in a row                                                         */
/* ---------------------------------------------------------------------- */

/* What an event makes of a session of this row; the row itself is only looked at. */
static inline struct tacit_answer happen(struct tacit_session *session,
                                         const struct tacit_session *row, size_t row_len,
                                         const struct tacit_event *event,
                                         const struct tacit_limits *limits, const uint8_t *area,
                                         size_t area_len, uint8_t *room, size_t room_len)
{
    switch (event->which) {
    case TACIT_EVENT_INITIALIZATION:
        return limited_initialization(session, row, row_len, limits, area, area_len);
    case TACIT_EVENT_CAPABILITY:
        return capability(session, area, area_len);
    case TACIT_EVENT_LOCAL_CHANGE:
        return local_change(session, event->ta_id, event->on != 0, room, room_len);
    case TACIT_EVENT_MISMATCH:
        return mismatch(session);
    case TACIT_EVENT_HELLO:
        return hello(session, event->number);
    case TACIT_EVENT_CLOSED:
        return closed(session);
    default:
        return refused(TACIT_REFUSED_STATE);
    }
}

/* The event happens to a copy, put down with its message once the totals have followed it. */
struct tacit_row_answer plain_row_event(struct tacit_session *row, size_t row_len, size_t at,
                                        struct tacit_event event, struct tacit_limits limits,
                                        struct tacit_totals totals, const uint8_t *area,
                                        size_t area_len, uint8_t *room, size_t room_len)
{
    uint8_t refusal = refusal_of_row(row, row_len, at);
    if (refusal != TACIT_NOT_REFUSED)
        return (struct tacit_row_answer){refused(refusal), totals};
    struct tacit_session after = row[at];
    uint8_t message[TACIT_MESSAGE_LENGTH];
    struct tacit_answer answer =
        happen(&after, row, row_len, &event, &limits, area, area_len, message, room_len);
    if (answer.refusal != TACIT_NOT_REFUSED)
        return (struct tacit_row_answer){answer, totals};
    struct tacit_totals followed = totals;
    if (!follow(&followed, answer.lost, answer.gained))
        return (struct tacit_row_answer){refused(TACIT_REFUSED_TOTAL), totals};
    if (answer.written != 0)
        memcpy(room, message, sizeof message);
    row[at] = after;
    return (struct tacit_row_answer){answer, followed};
}

/* The same, with the totals kept where they stand. */
static struct tacit_answer row_event_kept(struct tacit_session *row, size_t row_len, size_t at,
                                          struct tacit_event event, struct tacit_limits limits,
                                          struct tacit_totals *totals, const uint8_t *area,
                                          size_t area_len, uint8_t *room, size_t room_len)
{
    struct tacit_row_answer after = plain_row_event(row, row_len, at, event, limits, *totals, area,
                                                    area_len, room, room_len);
    *totals = after.totals;
    return after.answer;
}

struct tacit_answer plain_row_initialization(struct tacit_session *row, size_t row_len, size_t at,
                                             struct tacit_limits limits,
                                             struct tacit_totals *totals, const uint8_t *area,
                                             size_t area_len)
{
    struct tacit_event event = {.which = TACIT_EVENT_INITIALIZATION};
    return row_event_kept(row, row_len, at, event, limits, totals, area, area_len, NULL, 0);
}

struct tacit_answer plain_row_capability(struct tacit_session *row, size_t row_len, size_t at,
                                         struct tacit_totals *totals, const uint8_t *area,
                                         size_t area_len)
{
    struct tacit_event event = {.which = TACIT_EVENT_CAPABILITY};
    return row_event_kept(row, row_len, at, event, plain_no_limits(), totals, area, area_len, NULL,
                          0);
}

struct tacit_answer plain_row_local_change(struct tacit_session *row, size_t row_len, size_t at,
                                           struct tacit_totals *totals, uint32_t ta_id, bool on,
                                           uint8_t *room, size_t room_len)
{
    struct tacit_event event = {.which = TACIT_EVENT_LOCAL_CHANGE, .ta_id = ta_id, .on = on};
    return row_event_kept(row, row_len, at, event, plain_no_limits(), totals, NULL, 0, room,
                          room_len);
}

struct tacit_answer plain_row_mismatch(struct tacit_session *row, size_t row_len, size_t at,
                                       struct tacit_totals *totals)
{
    struct tacit_event event = {.which = TACIT_EVENT_MISMATCH};
    return row_event_kept(row, row_len, at, event, plain_no_limits(), totals, NULL, 0, NULL, 0);
}

struct tacit_answer plain_row_hello(struct tacit_session *row, size_t row_len, size_t at,
                                    struct tacit_totals *totals, uint32_t number)
{
    struct tacit_event event = {.which = TACIT_EVENT_HELLO, .number = number};
    return row_event_kept(row, row_len, at, event, plain_no_limits(), totals, NULL, 0, NULL, 0);
}

struct tacit_answer plain_row_closed(struct tacit_session *row, size_t row_len, size_t at,
                                     struct tacit_totals *totals)
{
    struct tacit_event event = {.which = TACIT_EVENT_CLOSED};
    return row_event_kept(row, row_len, at, event, plain_no_limits(), totals, NULL, 0, NULL, 0);
}
