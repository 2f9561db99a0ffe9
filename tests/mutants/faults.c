/*
 * faults.c - the library with a fault of the kind that no answer shows
 *
 * Linked in front of the library with --wrap for the calls that are spoiled here.
 * FAULT says which one is: see run.
 */
#include "calls.h"

DECLARE_CALLS(__real_tacit)
DECLARE_CALLS(__wrap_tacit)

static unsigned hellos;

SIGNATURE_hello(__wrap_tacit)
{
    struct tacit_answer answer = __real_tacit_hello(PASSED_hello);
    hellos++;
#if FAULT == 1 /* writes an octet in front of the record */
    if (answer.outcome == 1)
        record[-1] ^= 1;
#elif FAULT == 2 /* writes an octet behind the record */
    if (answer.outcome == 1)
        record[record_len] ^= 1;
#elif FAULT == 3 /* answers otherwise the second time */
    if (hellos % 2 == 0)
        answer.gained ^= 1;
#elif FAULT == 4 /* ends the program */
    if (answer.outcome == 1)
        __builtin_trap();
#elif FAULT == 5 /* never returns */
    volatile bool forever = answer.outcome == 1;
    while (forever) {
    }
#endif
    return answer;
}

SIGNATURE_read(__wrap_tacit)
{
    struct tacit_reading reading = __real_tacit_read(PASSED_read);
#if FAULT == 6 /* writes into an area */
    if (reading.dynamic)
        *(uint8_t *)area ^= 1;
#elif FAULT == 7 /* reads an octet behind the area, and makes nothing of it */
    if (reading.dynamic)
        (void)*(const volatile uint8_t *)(area + area_len);
#elif FAULT == 8 /* reads an octet in front of the area, and makes something of it */
    if (reading.dynamic && *(const volatile uint8_t *)(area - 1) % 2 == 1)
        reading.dynamic = 2;
#endif
    return reading;
}

SIGNATURE_row_event(__wrap_tacit)
{
    struct tacit_row_answer after = __real_tacit_row_event(PASSED_row_event);
    struct tacit_answer answer = after.answer;
#if FAULT == 9 /* writes the session in front of the row */
    if (answer.outcome == 1)
        row[-1].next ^= 1;
#elif FAULT == 10 /* writes the session behind the row */
    if (answer.outcome == 1)
        row[row_len].flags ^= 1;
#elif FAULT == 11 /* writes the session that a number outside the row would mean */
    if (answer.refusal == 11 && at > row_len && at < row_len + 64)
        row[at].state ^= 1;
#elif FAULT == 12 /* writes another session of the row */
    if (answer.outcome == 1 && row_len > 1)
        row[(at + 1) % row_len].next = 0x0BADBAD0;
#elif FAULT == 13 /* reads the session behind the row, and makes nothing of it */
    if (answer.outcome == 1)
        (void)*(const volatile uint8_t *)&row[row_len].state;
#elif FAULT == 14 /* reads padding, and makes something of it */
    if (answer.outcome == 1)
        answer.lost |= *((const volatile uint8_t *)&row[at].enabled - 1) & 1;
#elif FAULT == 15 /* writes into an area */
    if (answer.refusal == 7 && area_len > 0)
        *(uint8_t *)area ^= 1;
#elif FAULT == 16 /* writes an octet behind the room */
    if (answer.written > 0)
        room[room_len] ^= 1;
#elif FAULT == 17 /* writes padding, which is its right */
    for (size_t i = 0; answer.refusal == 0 && i < row_len; i++)
        *((uint8_t *)&row[i].enabled - 1) ^= 0x55;
#endif
    after.answer = answer;
    return after;
}

SIGNATURE_row_count(__wrap_tacit)
{
    struct tacit_count answer = __real_tacit_row_count(PASSED_row_count);
#if FAULT == 18 /* writes into a row that is only counted */
    if (answer.count > 0)
        ((struct tacit_session *)row)->hello ^= 1;
#elif FAULT == 19 /* counts the session in front of the row too */
    if (answer.refusal == 0)
        answer.count += row[-1].state == TACIT_OPEN;
#endif
    return answer;
}

SIGNATURE_load(__wrap_tacit)
{
    struct tacit_loaded answer = __real_tacit_load(PASSED_load);
#if FAULT == 20 /* writes into a record that is only loaded */
    if (answer.refusal == 0)
        *(uint8_t *)record ^= 1;
#endif
    return answer;
}

SIGNATURE_wish_sac(__wrap_tacit)
{
    struct tacit_written answer = __real_tacit_wish_sac(PASSED_wish_sac);
#if FAULT == 21 /* writes an octet behind the room */
    if (answer.written > 0 && answer.written == room_len)
        room[room_len] ^= 1;
#endif
    return answer;
}

SIGNATURE_forward(__wrap_tacit)
{
    struct tacit_moved answer = __real_tacit_forward(PASSED_forward);
#if FAULT == 24 /* writes into the record that it moves */
    if (answer.refusal == 0)
        *(uint8_t *)kind1 ^= 1;
#elif FAULT == 25 /* reads where kind 2 has capabilities, and makes nothing of it */
    if (answer.refusal == 0)
        (void)*(const volatile uint8_t *)(kind1 + kind1_len);
#endif
    return answer;
}

SIGNATURE_back(__wrap_tacit)
{
    uint8_t refusal = __real_tacit_back(PASSED_back);
#if FAULT == 26 /* writes where kind 2 has capabilities */
    if (refusal == 0)
        kind1[kind1_len] = 0;
#endif
    return refusal;
}

SIGNATURE_recount(__wrap_tacit)
{
    struct tacit_row_totals answer = __real_tacit_recount(PASSED_recount);
#if FAULT == 22 /* writes into a row that is only counted */
    if (answer.refusal == 0)
        ((struct tacit_session *)row)->hello ^= 1;
#elif FAULT == 23 /* counts the session behind the row too */
    if (answer.refusal == 0)
        answer.totals.of[0] += row[row_len].state == TACIT_OPEN;
#endif
    return answer;
}
