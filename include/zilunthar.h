/*
 * Zilunthar as a library: a keeper and tablets that a program keeps in its own memory. Link libcapi.a, and beside it
 * liblibc_c.a, by which it has malloc, realloc and free. docs/RULES.md says what a keeper and a tablet do, and what messages and
 * records are.
 *
 * WHAT THE HOST OWES. The library reads no file, no clock and no network. So the host:
 *
 *  - keeps the journal of each keeper and tablet in a file. Before it opens one, it reads the whole file; after it, it cuts the
 *    file to the bytes that are whole records, and syncs it.
 *  - appends the record that a call left, if any, and syncs the file, BEFORE it sends a message of that call, or shows its copy,
 *    or tells a writer. Where that fails it does none of these, and releases the handle: memory is then ahead of the file.
 *  - may let several messages to a keeper share one sync: their records are appended in their order, then the file is synced, and
 *    only then may anything of these calls leave.
 *  - does so after every call that is answered by 0 to 9: a call that the rules refuse can have a record, messages or both.
 *  - gives readings of one clock in milliseconds, each at least the one before, within the rate of the terms; and to a keeper
 *    the long and to its tablets the short of terms that fit together (zilunthar_terms).
 *
 * And as of every C function: pointers are never NULL, also where a length is 0; the bytes of a length are there, and bytes that
 * are written are lent to that call alone, so no two buffers overlap; a handle is all zero bytes at first and from then on only
 * the library changes it, and no copy of it is used; one call at a time has a handle, and all calls with it come from one thread;
 * no call is made from a signal handler. malloc, realloc and free come from one allocator that aligns a block to the powers of two up
 * to 16 that divide its size. A thread that opens has some 64 KiB of stack left.
 *
 * NUMBERS. Each call but zilunthar_release gives one:
 *   0        done
 *   1 to 9   refused by the rules, by the number in docs/RULES.md
 *   10 to 13 not made, and nothing has changed: no handle, no buffer, no reply (below); but for 12 from a call that does not open:
 *            then the handle is empty, and is to be opened again from its journal
 */
#ifndef ZILUNTHAR_H
#define ZILUNTHAR_H

#include <stdbool.h>
#include <stddef.h>
#include <stdint.h>

#ifdef __cplusplus
extern "C" {
#endif

/* The handle holds no keeper that is up, or no tablet; or, where it is to be filled, it holds something already. */
#define ZILUNTHAR_HANDLE 10
/* A number is out of range, a slice is of the wrong length, or a buffer has less room than is said here. */
#define ZILUNTHAR_ARGUMENT 11
/* There is no memory. From a call that does not open: what came of it is lost, the handle is empty, and the buffers and the reply are as they were. */
#define ZILUNTHAR_NO_MEMORY 12
/* The bytes are no journal of a keeper, or of a tablet: the file is to be left as it is. */
#define ZILUNTHAR_NO_JOURNAL 13

/* How many bytes a part has, and what room a buffer has at least: for a record, for messages, and for a copy. */
#define ZILUNTHAR_PART 1024
#define ZILUNTHAR_RECORD 1032
#define ZILUNTHAR_MESSAGES 1033
#define ZILUNTHAR_COPY 1024

/* A keeper or a tablet, or, where all bytes are zero, nothing. */
typedef struct zilunthar_handle {
    void *at;
    bool is_open;
} zilunthar_handle;

/*
 * What a writer is told of its write: 4 that it is in, 5 that it is void; the file and the part, and the number of the write.
 * All 0: nothing.
 */
typedef struct zilunthar_word {
    uint8_t kind;
    uint8_t file;
    uint8_t part;
    uint32_t number;
} zilunthar_word;

/*
 * What a call left: so many bytes of a record, in front of the buffer for it, 0 where there is none; so many messages, each of so
 * many bytes, one behind the other in front of the buffer for them; and what a writer is told. To whom a message goes stands in
 * it: its first byte is its kind, its second is the borrower.
 */
typedef struct zilunthar_reply {
    size_t record_size;
    size_t message_count;
    size_t message_size;
    zilunthar_word told;
} zilunthar_reply;

/*
 * Whether terms fit together: 0, or the first condition that fails: 1 the rate is above 10,000, 2 short is below 1, 3 long is
 * above 3,600,000, 4 long is too close to short.
 */
uint8_t zilunthar_terms(uint64_t rate, uint64_t short_time, uint64_t long_time);

/*
 * An empty handle holds a keeper, made from the bytes of its journal; `whole` says how many of these are whole records, and
 * there the file is to be cut. It is not up yet. 0, 10, 12 or 13.
 */
uint8_t zilunthar_keeper_open(zilunthar_handle *keeper, uint64_t long_time, const uint8_t *journal, size_t journal_size, size_t *whole);

/*
 * The keeper comes up at this reading: its leases are gone and its grace period begins. 0, or 9 and nothing changes where the
 * grace period would pass 64 bits, or 1 and nothing changes where it is up, or 10.
 */
uint8_t zilunthar_keeper_come_up(zilunthar_handle *keeper, uint64_t clock);

/* Bytes came, which may be anything, at this reading. What the keeper sends is one message, or up to 32 recalls, or nothing. */
uint8_t zilunthar_keeper_receive(zilunthar_handle *keeper, uint64_t clock, const uint8_t *message, size_t message_size, uint8_t *record, size_t record_room,
                                 uint8_t *messages, size_t messages_room, zilunthar_reply *reply);

/*
 * An empty handle holds the tablet of the borrower `who`, below 32, that comes up from the bytes of its journal; `whole` as for a
 * keeper. 0, 10, 11, 12 or 13.
 */
uint8_t zilunthar_tablet_open(zilunthar_handle *tablet, uint8_t who, uint64_t short_time, const uint8_t *journal, size_t journal_size, size_t *whole);

/* The tablet asks for a part, to read it by the kind 0, to write it by 1. Files are below 64. */
uint8_t zilunthar_tablet_ask(zilunthar_handle *tablet, uint64_t clock, uint8_t file, uint8_t part, uint8_t kind, uint8_t *record, size_t record_room,
                             uint8_t *messages, size_t messages_room, zilunthar_reply *reply);

/*
 * The tablet shows a part: by 0 its 1,024 bytes are in front of `copy`, and may be shown at this reading, once the record is
 * synced. By any other number the buffer `copy` is as it was. Nothing is sent.
 */
uint8_t zilunthar_tablet_show(zilunthar_handle *tablet, uint64_t clock, uint8_t file, uint8_t part, uint8_t *record, size_t record_room, uint8_t *copy,
                              size_t copy_room, zilunthar_reply *reply);

/* The tablet writes a part, with these bytes, of which there have to be 1,024. */
uint8_t zilunthar_tablet_write(zilunthar_handle *tablet, uint64_t clock, uint8_t file, uint8_t part, const uint8_t *bytes, size_t bytes_size, uint8_t *record,
                               size_t record_room, uint8_t *messages, size_t messages_room, zilunthar_reply *reply);

/* The tablet lets go of its copy of a part, if it has one. */
uint8_t zilunthar_tablet_forget(zilunthar_handle *tablet, uint8_t file, uint8_t part, uint8_t *record, size_t record_room, uint8_t *messages, size_t messages_room,
                                zilunthar_reply *reply);

/* Bytes came, which may be anything. */
uint8_t zilunthar_tablet_receive(zilunthar_handle *tablet, const uint8_t *message, size_t message_size, uint8_t *record, size_t record_room, uint8_t *messages,
                                 size_t messages_room, zilunthar_reply *reply);

/* What the handle holds, if anything, is gone, and its memory is freed; the handle is empty. The journal says all that is to be known. */
void zilunthar_release(zilunthar_handle *handle);

#ifdef __cplusplus
}
#endif

#endif
