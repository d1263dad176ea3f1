/*
 * Calls the library with what it has to refuse, and prints the numbers: what it prints is in tests/misuse.out. It needs what
 * tests/build makes.
 */
#include "zilunthar.h"
#include <stdio.h>
#include <string.h>

static uint8_t record[ZILUNTHAR_RECORD], messages[ZILUNTHAR_MESSAGES], copy[ZILUNTHAR_COPY];
static zilunthar_handle keeper, tablet;
static zilunthar_reply reply;

static void say(const char *what, int number) { printf("%s: %d\n", what, number); }

static int receive(const uint8_t *message, size_t size, size_t record_room, size_t messages_room) {
    return zilunthar_keeper_receive(&keeper, 2000, message, size, record, record_room, messages, messages_room, &reply);
}

static int ask(zilunthar_handle *handle, uint8_t file, uint8_t kind, size_t record_room, size_t messages_room) {
    return zilunthar_tablet_ask(handle, 1000, file, 7, kind, record, record_room, messages, messages_room, &reply);
}

static void handles(void) {
    size_t whole = 77;
    say("an empty handle comes up", zilunthar_keeper_come_up(&keeper, 1000));
    say("an empty handle asks", ask(&tablet, 3, 0, sizeof record, sizeof messages));
    say("bytes that are no journal", zilunthar_keeper_open(&keeper, 110, (const uint8_t *)"\n", 1, &whole));
    printf("whole is still %zu, and the handle is %s\n", whole, keeper.is_open ? "open" : "empty");
    say("a journal of nothing", zilunthar_keeper_open(&keeper, 110, record, 0, &whole));
    printf("whole is %zu\n", whole);
    say("a handle that is full", zilunthar_keeper_open(&keeper, 110, record, 0, &whole));
    say("the same for a tablet", zilunthar_tablet_open(&keeper, 5, 100, record, 0, &whole));
    say("a message before it is up", receive(messages, 0, sizeof record, sizeof messages));
    say("near the end of the clock", zilunthar_keeper_come_up(&keeper, UINT64_MAX - 109));
    say("it comes up", zilunthar_keeper_come_up(&keeper, 1000));
    say("borrower 32", zilunthar_tablet_open(&tablet, 32, 100, record, 0, &whole));
    say("borrower 31", zilunthar_tablet_open(&tablet, 31, 100, record, 0, &whole));
    say("a keeper shows", zilunthar_tablet_show(&keeper, 1000, 3, 7, record, sizeof record, copy, sizeof copy, &reply));
    say("a tablet comes up", zilunthar_keeper_come_up(&tablet, 1000));
}

static void arguments(void) {
    memset(&reply, 0xAA, sizeof reply);
    memset(record, 0xAA, sizeof record);
    memset(messages, 0xAA, sizeof messages);
    say("kind 2", ask(&tablet, 3, 2, sizeof record, sizeof messages));
    say("file 64", ask(&tablet, 64, 1, sizeof record, sizeof messages));
    say("no room for a record", ask(&tablet, 3, 1, ZILUNTHAR_RECORD - 1, sizeof messages));
    say("no room for a message", ask(&tablet, 3, 1, sizeof record, ZILUNTHAR_MESSAGES - 1));
    say("no room for a copy", zilunthar_tablet_show(&tablet, 1000, 3, 7, record, sizeof record, copy, ZILUNTHAR_COPY - 1, &reply));
    say("a write of 1,023 bytes", zilunthar_tablet_write(&tablet, 1000, 3, 7, copy, ZILUNTHAR_PART - 1, record, sizeof record, messages, sizeof messages, &reply));
    say("no room at the keeper", receive(messages, 0, 0, 0));
    uint8_t *bytes = (uint8_t *)&reply;
    printf("the reply and the buffers are %s\n", bytes[0] == 0xAA && record[0] == 0xAA && messages[0] == 0xAA ? "as they were" : "changed");
    say("an ask as it should be", ask(&tablet, 3, 1, sizeof record, sizeof messages));
    printf("a record of %zu bytes, and %zu message of %zu\n", reply.record_size, reply.message_count, reply.message_size);
}

static void recalls(void) {
    for (int who = 0; who < 32; who++) {
        const uint8_t reading[13] = {1, (uint8_t)who, 3, 7, 0, 0, 0, 1};
        if (receive(reading, sizeof reading, sizeof record, sizeof messages) != 0) say("not lent", who);
    }
    const uint8_t writing[13] = {1, 4, 3, 7, 0, 0, 0, 2, 1};
    say("31 others read", receive(writing, sizeof writing, sizeof record, sizeof messages));
    printf("%zu messages of %zu bytes, to", reply.message_count, reply.message_size);
    for (size_t k = 0; k < reply.message_count; k++) printf(" %d", messages[k * reply.message_size + 1]);
    printf("\n");
}

int main(void) {
    handles();
    arguments();
    recalls();
    zilunthar_release(&keeper);
    zilunthar_release(&keeper);
    zilunthar_release(&tablet);
    printf("the handles are %s\n", keeper.is_open || tablet.is_open ? "open" : "empty");
    printf("terms: %d %d %d %d %d\n", zilunthar_terms(0, 100, 104), zilunthar_terms(10001, 100, 1000), zilunthar_terms(0, 0, 1000),
           zilunthar_terms(0, 100, 3600001), zilunthar_terms(0, 100, 103));
    return 0;
}
