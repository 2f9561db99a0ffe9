// The header in C++17, its assertions on sizes included: a session, a row with totals, a wish,
// a capability, a record of kind 1.
#include "tacit.h"

#include <cstring>

static const uint8_t area[] = {0x85, 0x0F, 0, 5, 0x80, 0, 7, 0x80, 0};

static bool one_session(uint8_t *record, size_t record_len)
{
    const tacit_answer answer = tacit_initialization(record, record_len, area, sizeof area);
    if (answer.outcome != TACIT_DONE || tacit_state(record, record_len) != TACIT_OPEN)
        return false;
    char line[TACIT_ANSWER_TEXT_MOST];
    if (tacit_answer_text(line, sizeof line, answer) >= sizeof line ||
        std::strcmp(line, "done; gained Generalized PWid") != 0)
        return false;
    const tacit_kinds kinds = tacit_permitted_kinds(record, record_len);
    return kinds.kinds == TACIT_KIND_SET(TACIT_KIND_GENERALIZED_PWID) &&
           std::strcmp(tacit_outcome_text(answer.outcome), "done") == 0;
}

// How many sessions may get a kind: by the totals, and by a walk over the row.
static bool total_is(const tacit_session *row, tacit_totals totals, uint8_t total)
{
    const uint32_t kind = TACIT_KIND_GENERALIZED_PWID;
    const tacit_row_totals walk = tacit_recount(row, 2);
    return walk.refusal == 0 && std::memcmp(&walk.totals, &totals, sizeof totals) == 0 &&
           tacit_kind_total(totals, kind).total == total &&
           tacit_kind_total(totals, TACIT_KINDS).refusal == TACIT_REFUSED_NUMBER;
}

// Of two sessions one is let in, then the other, when the first is closed.
static bool one_row(const uint8_t *record, size_t record_len)
{
    const tacit_session fresh = tacit_load(record, record_len).session;
    tacit_session row[] = {fresh, fresh};
    tacit_totals totals{};
    const tacit_limits limits = tacit_set_limit(tacit_no_limits(), TACIT_APP_FEC129_PW, 1).limits;
    uint8_t room[TACIT_MESSAGE_LENGTH];
    for (size_t at = 0; at < 2; at++) {
        const tacit_answer answer =
            tacit_row_initialization(row, 2, at, limits, &totals, area, sizeof area);
        if (answer.outcome != (at == 0 ? TACIT_DONE : TACIT_AT_LIMIT))
            return false;
    }
    if (tacit_row_count(row, 2, TACIT_APP_FEC129_PW).count != 1 || !total_is(row, totals, 1) ||
        tacit_session_retry(row[1]).interval != 65535 ||
        tacit_row_hello(row, 2, 1, &totals, 1).refusal != 0)
        return false;
    if (tacit_row_capability(row, 2, 0, &totals, area, sizeof area).refusal != 0 ||
        tacit_row_closed(row, 2, 0, &totals).lost != TACIT_KIND_SET(TACIT_KIND_GENERALIZED_PWID) ||
        !total_is(row, totals, 0))
        return false;
    if (tacit_row_local_change(row, 2, 1, &totals, 4, true, room, sizeof room).refusal != 0 ||
        tacit_row_initialization(row, 2, 1, limits, &totals, area, sizeof area).refusal != 0)
        return false;
    return tacit_session_kinds(row[1]).kinds == TACIT_KIND_SET(TACIT_KIND_GENERALIZED_PWID) &&
           total_is(row, totals, 1) &&
           tacit_row_mismatch(row, 2, 1, &totals).outcome == TACIT_MISMATCH &&
           total_is(row, totals, 0);
}

// A wish in a message, then all wishes in an Initialization, by record and by session.
static bool one_wish(uint8_t *record, size_t record_len, uint32_t wishes)
{
    static const uint8_t dynamic[] = {0x85, 0x06, 0, 1, 0x80};
    uint8_t room[TACIT_WISH_LENGTH], sac[TACIT_SAC_MOST];
    if (tacit_closed(record, record_len).refusal != 0 ||
        tacit_initialization(record, record_len, dynamic, sizeof dynamic).refusal != 0)
        return false;
    const tacit_wished wished = tacit_wish(record, record_len, wishes, TACIT_SAC_IPV4_PREFIX, true,
                                           room, sizeof room);
    if (wished.answer.written != sizeof room || room[sizeof room - 1] != 0x90)
        return false;
    const tacit_written written = tacit_wish_sac(wished.wishes, sac, sizeof sac);
    tacit_session session = tacit_load(record, record_len).session;
    return written.written == 7 && sac[5] == 0x90 && sac[6] == 0xA0 &&
           tacit_wanted(wished.wishes, TACIT_KIND_IPV4_PREFIX).wanted == 0 &&
           tacit_wanted(wished.wishes, TACIT_KIND_PWID).wanted == 1 &&
           tacit_session_wish(&session, wished.wishes, 1, false, room, sizeof room).wishes ==
               wishes &&
           session.next == 3 && std::strcmp(tacit_sac_app_text(1), "IPv4 prefixes") == 0;
}

// The peer announces P2MP, and its labels may be sent.
static bool one_capability(uint8_t *record, size_t record_len)
{
    static const uint8_t p2mp[] = {0x85, 0x08, 0, 1, 0x80};
    const enum tacit_capability held = TACIT_CAPABILITY_P2MP;
    const tacit_reading reading = tacit_read(p2mp, sizeof p2mp);
    const tacit_reason why = tacit_why_not(record, record_len, TACIT_KIND_P2MP);
    if (reading.capabilities != held || reading.holding != held ||
        why.reason != TACIT_CAPABILITY_NOT_THEIRS)
        return false;
    const tacit_answer answer = tacit_capability(record, record_len, p2mp, sizeof p2mp);
    const tacit_session session = tacit_load(record, record_len).session;
    return answer.gained == TACIT_KIND_SET(TACIT_KIND_P2MP) && session.ours == held &&
           session.theirs == held && std::strcmp(tacit_capability_text(held), "P2MP") == 0;
}

// A record of kind 1 moved forward and back, and one that cannot go back.
static bool one_move(const uint8_t *holding, size_t holding_len)
{
    static const uint8_t old[TACIT_KIND1_LENGTH] = {20, 0, 1, 0, 1, 7, 0x48, 0, 0, 0, 0,
                                                    0,  0, 0, 0, 0, 0, 0,    1, 0, 0, 0};
    uint8_t moved[TACIT_RECORD_LENGTH], again[TACIT_KIND1_LENGTH] = {};
    const tacit_moved answer = tacit_forward(old, sizeof old, moved, sizeof moved);
    if (answer.refusal != 0 || answer.lost != 0x7C || !tacit_sound(moved, sizeof moved))
        return false;
    if (tacit_back(holding, holding_len, again, sizeof again) != TACIT_REFUSED_CAPABILITIES ||
        again[0] != 0)
        return false;
    return tacit_back(moved, sizeof moved, again, sizeof again) == 0 &&
           std::memcmp(again, old, sizeof old) == 0;
}

int main()
{
    uint8_t record[TACIT_RECORD_LENGTH], stored[TACIT_RECORD_LENGTH];
    tacit_settings settings{};
    settings.initiating = settings.active = settings.uses_tac = true;
    settings.enabled = TACIT_APP_SET(TACIT_APP_FEC129_PW);
    settings.first_number = 1;
    settings.wishes = TACIT_SAC_SET(TACIT_SAC_IPV6_PREFIX);
    settings.capabilities = TACIT_CAPABILITY_P2MP;
    if (tacit_create(record, sizeof record, settings) != TACIT_NOT_REFUSED)
        return 1;
    if (tacit_store(tacit_load(record, sizeof record).session, stored, sizeof stored) != 0 ||
        std::memcmp(record, stored, sizeof record) != 0)
        return 1;
    return one_row(record, sizeof record) && one_session(record, sizeof record) &&
                   one_wish(record, sizeof record, settings.wishes) &&
                   one_capability(record, sizeof record) && one_move(record, sizeof record)
               ? 0
               : 1;
}
