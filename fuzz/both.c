/* both: libdnr.a and the reference implementation on the same input. The process is aborted where they differ, where a promise of
 * include/dnr.h is broken, and where writing a sheet and reading the octets does not give it back.
 *
 * The first octet of an input, modulo 8, names the call: 1 to 5 read under that carrier, 0 reads under the octet itself, which is no
 * carrier, 6 and 7 write. The next two, most significant first, are the room of the output, and the rest is the area or the sheet. The
 * call is made with that room, with room for anything, with exactly the room that the result needs, and with one octet less.
 *
 * LLVMFuzzerTestOneInput is called by libFuzzer (make fuzz) or by replay.c (make replay).
 */
#define _DEFAULT_SOURCE
#include "dnr.h"

#include <stdio.h>
#include <stdlib.h>
#include <string.h>
#include <sys/mman.h>
#include <unistd.h>

/* host/fuzz: the reference under the same signatures. */
dnr_reading ref_read(size_t carrier, const uint8_t *area, size_t area_len, uint8_t *sheet, size_t sheet_len);
dnr_result ref_write(const uint8_t *sheet, size_t sheet_len, uint8_t *octets, size_t octets_len);
int LLVMFuzzerTestOneInput(const uint8_t *data, size_t size);

enum { CAPACITY = 1 << 16, GUARD = 64, MARK = 0xa5 };

/* Where the buffers handed to the calls end: a page follows that nobody may touch. */
static uint8_t *input_end, *mine_end, *theirs_end;

static void stop(const char *what)
{
    fprintf(stderr, "both: %s\n", what);
    abort();
}

static uint8_t *fenced(void)
{
    const size_t page = (size_t)sysconf(_SC_PAGESIZE), size = (GUARD + CAPACITY + page - 1) / page * page;
    uint8_t *front = mmap(NULL, size + page, PROT_READ | PROT_WRITE, MAP_PRIVATE | MAP_ANONYMOUS, -1, 0);
    if (front == MAP_FAILED || mprotect(front + size, page, PROT_NONE) != 0)
        stop("no memory");
    return front + size;
}

/* The input at the end of its buffer; NULL for none. */
static const uint8_t *handed(const uint8_t *octets, size_t length)
{
    if (length == 0)
        return NULL;
    return memcpy(input_end - length, octets, length);
}

/* An output of `room` octets at the end of its buffer, marked, with marked octets in front; NULL for none. */
static uint8_t *lent(uint8_t *end, size_t room)
{
    memset(end - room - GUARD, MARK, room + GUARD);
    return room == 0 ? NULL : end - room;
}

static int marked(const uint8_t *octets, size_t length)
{
    return length == 0 || (*octets == MARK && memcmp(octets, octets + 1, length - 1) == 0);
}

/* What holds of the buffers after both calls, of which each answered with `length` octets. */
static void check_buffers(const uint8_t *input, size_t input_len, size_t room, size_t length)
{
    if (length > room)
        stop("a length is larger than the room");
    if (memcmp(mine_end - room, theirs_end - room, length) != 0)
        stop("the octets differ");
    if (!marked(mine_end - room + length, room - length) || !marked(theirs_end - room + length, room - length))
        stop("an octet past the length was changed");
    if (!marked(mine_end - room - GUARD, GUARD) || !marked(theirs_end - room - GUARD, GUARD))
        stop("an octet in front of the output was changed");
    if (input_len != 0 && memcmp(input_end - input_len, input, input_len) != 0)
        stop("the input was changed");
}

/* Both readings, compared. The sheet stands at mine_end - room. */
static dnr_reading reading(size_t carrier, const uint8_t *area, size_t area_len, size_t room)
{
    const uint8_t *in = handed(area, area_len);
    const dnr_reading got = dnr_read(carrier, in, area_len, lent(mine_end, room), room);
    const dnr_reading wanted = ref_read(carrier, in, area_len, lent(theirs_end, room), room);
    if (memcmp(&got, &wanted, sizeof got) != 0)
        stop("the numbers of a reading differ");
    if (got.number != DNR_DONE && (got.length | got.found | got.discarded | got.fault | got.place) != 0)
        stop("a refused reading has another number than zero");
    if (got.fault != DNR_FAULT_NAME ? got.place != 0 : got.place < 5 || got.place > area_len)
        stop("a reading has a place that no name has");
    check_buffers(area, area_len, room, got.length);
    return got;
}

/* Both writings, compared. The octets stand at mine_end - room. */
static dnr_result writing(const uint8_t *sheet, size_t sheet_len, size_t room)
{
    const uint8_t *in = handed(sheet, sheet_len);
    const dnr_result got = dnr_write(in, sheet_len, lent(mine_end, room), room);
    const dnr_result wanted = ref_write(in, sheet_len, lent(theirs_end, room), room);
    if (memcmp(&got, &wanted, sizeof got) != 0)
        stop("the numbers of a writing differ");
    if (got.number != DNR_DONE && got.length != 0)
        stop("a refused writing has a length");
    if (got.number != DNR_FAULT_NAME ? got.place != 0 : got.place < 15 || got.place > sheet_len)
        stop("a writing has a place that no name has");
    check_buffers(sheet, sheet_len, room, got.length);
    return got;
}

/* Writes a sheet with room for anything and reads the octets under its carrier: every block is kept, and the sheet is the same. */
static dnr_result round_trip(const uint8_t *sheet, size_t sheet_len)
{
    static uint8_t octets[DNR_MAX_OCTETS];
    const dnr_result written = writing(sheet, sheet_len, sizeof octets);
    if (written.number == DNR_REFUSAL_ROOM)
        stop("the room for any octets is too short");
    if (written.number != DNR_DONE)
        return written;
    memcpy(octets, mine_end - sizeof octets, written.length);
    const size_t records = sheet[6], blocks = sheet[5] == DNR_DHCP4 && records > 0 ? 1 : records;
    const dnr_reading read = reading(sheet[5], octets, written.length, sheet_len);
    if (read.number != DNR_DONE || read.length != sheet_len || memcmp(mine_end - sheet_len, sheet, sheet_len) != 0)
        stop("reading what was written does not give the sheet back");
    if (read.found != blocks || (read.discarded | read.fault | read.place) != 0)
        stop("reading what was written discards or finds other blocks");
    return written;
}

static void try_reading(size_t carrier, const uint8_t *area, size_t area_len, size_t room)
{
    static uint8_t sheet[DNR_MAX_SHEET];
    const dnr_reading given = reading(carrier, area, area_len, room);
    const dnr_reading all = reading(carrier, area, area_len, sizeof sheet);
    if (all.number == DNR_REFUSAL_ROOM)
        stop("the room for any sheet is too short");
    if (all.number != DNR_DONE)
        return;
    memcpy(sheet, mine_end - sizeof sheet, all.length);
    if (given.number != (room < all.length ? DNR_REFUSAL_ROOM : DNR_DONE))
        stop("a reading does not depend on its room as it should");
    if (reading(carrier, area, area_len, all.length).number != DNR_DONE)
        stop("a reading is refused with the room that it needs");
    if (reading(carrier, area, area_len, all.length - 1).number != DNR_REFUSAL_ROOM)
        stop("a reading is done with less room than it needs");
    if (round_trip(sheet, all.length).number != DNR_DONE)
        stop("writing refuses what reading gave");
}

static void try_writing(const uint8_t *sheet, size_t sheet_len, size_t room)
{
    const dnr_result given = writing(sheet, sheet_len, room);
    const dnr_result all = round_trip(sheet, sheet_len);
    if (all.number != DNR_DONE) {
        if (given.number != all.number || given.place != all.place)
            stop("the refusal of a sheet depends on the room");
        return;
    }
    if (given.number != (room < all.length ? DNR_REFUSAL_ROOM : DNR_DONE))
        stop("a writing does not depend on its room as it should");
    if (writing(sheet, sheet_len, all.length).number != DNR_DONE)
        stop("a writing is refused with the room that it needs");
    if (all.length > 0 && writing(sheet, sheet_len, all.length - 1).number != DNR_REFUSAL_ROOM)
        stop("a writing is done with less room than it needs");
}

int LLVMFuzzerTestOneInput(const uint8_t *data, size_t size)
{
    if (input_end == NULL) {
        input_end = fenced();
        mine_end = fenced();
        theirs_end = fenced();
    }
    if (size < 3 || size - 3 > CAPACITY)
        return 0;
    const unsigned call = data[0] % 8;
    const size_t room = (size_t)data[1] << 8 | data[2];
    if (call >= 6)
        try_writing(data + 3, size - 3, room);
    else
        try_reading(call == 0 ? data[0] : (uint8_t)call, data + 3, size - 3, room);
    return 0;
}
