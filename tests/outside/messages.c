/*
 * messages.c - prints what the library writes and reads, for outside/run
 *
 * A line for each message that it writes for a change, "number ta_id on octets",
 * and for a wish, "number app disable octets"; for each set of wishes, "wishes
 * octets", the octets being those of the SAC for an Initialization; then, for each
 * area given on the command line, "refusal dynamic capabilities tac sac" as read and
 * "outcome state flags disabled" after an Initialization with it.
 */
#include "tacit.h"

#include <stdio.h>
#include <stdlib.h>
#include <string.h>

static void print_octets(const uint8_t *octets, size_t length)
{
    for (size_t i = 0; i < length; i++)
        printf("%02X", octets[i]);
    printf("\n");
}

/* Creates a session: initiating, active, TAC used. */
static void create(uint8_t *record, uint32_t enabled, uint32_t first_number)
{
    struct tacit_settings settings = {.initiating = true,
                                      .active = true,
                                      .uses_tac = true,
                                      .enabled = enabled,
                                      .first_number = first_number};
    tacit_create(record, TACIT_RECORD_LENGTH, settings);
}

/* Opens it with a peer that lists every application and takes Capability messages. */
static void open_session(uint8_t *record)
{
    uint8_t area[4 + 1 + 4 * 13 + 5] = {0x85, 0x0F, 0, 1 + 4 * 13, 0x80};
    for (uint8_t i = 0; i < 13; i++)
        memcpy(area + 5 + 4 * i, (const uint8_t[]){0, (uint8_t)(i + 1), 0x80, 0}, 4);
    memcpy(area + sizeof area - 5, (const uint8_t[]){0x85, 0x06, 0, 1, 0x80}, 5);
    tacit_initialization(record, TACIT_RECORD_LENGTH, area, sizeof area);
}

static void write_change(uint32_t number, uint32_t ta_id, bool on)
{
    uint8_t record[TACIT_RECORD_LENGTH], room[TACIT_MESSAGE_LENGTH];
    create(record, on ? TACIT_ALL_APPS & ~TACIT_APP_SET(ta_id) : TACIT_ALL_APPS, number);
    open_session(record);
    struct tacit_answer answer =
        tacit_local_change(record, sizeof record, ta_id, on, room, sizeof room);
    printf("%lu %lu %d ", (unsigned long)number, (unsigned long)ta_id, on);
    print_octets(room, answer.written);
}

static void write_wish(uint32_t number, uint32_t app, bool disable)
{
    uint8_t record[TACIT_RECORD_LENGTH], room[TACIT_WISH_LENGTH];
    create(record, TACIT_ALL_APPS, number);
    open_session(record);
    struct tacit_wished wished = tacit_wish(record, sizeof record, disable ? 0 : TACIT_ALL_SAC, app,
                                            disable, room, sizeof room);
    printf("%lu %lu %d ", (unsigned long)number, (unsigned long)app, disable);
    print_octets(room, wished.answer.written);
}

static void write_sac(uint32_t wishes)
{
    uint8_t room[TACIT_SAC_MOST];
    printf("%lu ", (unsigned long)wishes);
    print_octets(room, tacit_wish_sac(wishes, room, sizeof room).written);
}

static void read_area(const char *text)
{
    size_t length = strlen(text) / 2;
    uint8_t *area = malloc(length + 1);
    for (size_t i = 0; i < length; i++) {
        unsigned octet;
        if (area == NULL || sscanf(text + 2 * i, "%2x", &octet) != 1)
            exit(2);
        area[i] = (uint8_t)octet;
    }
    struct tacit_reading reading = tacit_read(area, length);
    printf("%d %d %X %d %d\n", reading.refusal, reading.dynamic, reading.capabilities,
           reading.tac.length, reading.sac.length);
    uint8_t record[TACIT_RECORD_LENGTH];
    create(record, TACIT_ALL_APPS, 1);
    struct tacit_answer answer = tacit_initialization(record, sizeof record, area, length);
    printf("%d %d %02X %X\n", answer.outcome, tacit_state(record, sizeof record), record[5],
           record[12]);
    free(area);
}

int main(int count, char **words)
{
    const uint32_t numbers[] = {0, 7, UINT32_MAX};
    const size_t some = sizeof numbers / sizeof *numbers;
    for (size_t i = 0; i < some; i++)
        for (uint32_t ta_id = 1; ta_id <= 13; ta_id++)
            for (int on = 0; on <= 1; on++)
                write_change(numbers[i], ta_id, on);
    for (size_t i = 0; i < some; i++)
        for (uint32_t app = 1; app <= 4; app++)
            for (int disable = 0; disable <= 1; disable++)
                write_wish(numbers[i], app, disable);
    for (uint32_t wishes = 0; wishes <= TACIT_ALL_SAC; wishes++)
        write_sac(wishes);
    for (int i = 1; i < count; i++)
        read_area(words[i]);
    return 0;
}
