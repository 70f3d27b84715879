/*
 * The file of the example host: what host.c and convert.c share.
 *
 * The file is a row of slots, one for each record, oldest first. A slot is the
 * record, four bytes of checksum, low byte first, and zeros up to its size. The
 * record by itself has no sign by which damage shows: with one byte spoiled it
 * may well be another record that the log accepts.
 *
 * A file from before records had turns, with version 2 of release_log.h, has
 * this form too: byte 7 of a record is 0 in it, which means turn 1. It is read
 * as it is.
 *
 * The file of an earlier host has another form: a record of 12 bytes, as in
 * version 1 of release_log.h, and its checksum. Byte 7 is 0 in it.
 */
#ifndef SLOTS_H
#define SLOTS_H

#include <errno.h>
#include <fcntl.h>
#include <inttypes.h>
#include <libgen.h>
#include <stdio.h>
#include <stdlib.h>
#include <string.h>
#include <sys/file.h>
#include <sys/stat.h>
#include <sys/types.h>
#include <unistd.h>

#include "release_log.h"

#define CHECKSUM_SIZE 4
#define SLOT_SIZE 32

/* A slot never lies in two sectors of a disk, since its size divides theirs: the disk writes it
   whole or not at all. */
#define SECTOR_SIZE 512
typedef char slot_divides_sector[SECTOR_SIZE % SLOT_SIZE == 0 ? 1 : -1];
typedef char slot_has_room[RELEASE_LOG_RECORD_SIZE + CHECKSUM_SIZE <= SLOT_SIZE ? 1 : -1];

/*
 * The most slots of a file, and records in memory. Each time that a machine
 * comes back and takes its store again, there is a record more. So a file may
 * become full: then an entry that the log would accept is answered
 * RELEASE_LOG_NO_PLACE, and all else goes on as before. A host with a larger
 * number reads the same file, and goes on there. RELEASE_LOG_RECORDS_MOST is
 * enough for any log.
 */
#define SLOTS_MOST 1024

/* Where a record has its turn. */
#define TURN_BYTE 7

struct form {
	size_t record_size;
	size_t slot_size;
	int has_turns;
};

/* That of this host, and that of an earlier one. */
static const struct form form_now = {RELEASE_LOG_RECORD_SIZE, SLOT_SIZE, 1};
static const struct form form_before = {12, 16, 0};

/* An open file, and its records as release_log.h has them, whatever the form of the file. The limit
   of the log is not in the file: `stores` is what whoever opens it says. */
struct slots {
	uint32_t stores;
	const char *path;
	int fd;
	size_t count;
	uint8_t records[SLOTS_MOST * RELEASE_LOG_RECORD_SIZE];
};

static inline uint8_t *record_at(struct slots *slots, size_t index)
{
	return slots->records + index * RELEASE_LOG_RECORD_SIZE;
}

/* Ends the program because of a system call. */
static inline void fail(const char *what)
{
	perror(what);
	exit(1);
}

/* What an answer of the library says. */
static inline const char *meaning(uint32_t answer)
{
	switch (answer) {
	case RELEASE_LOG_OK: return "accepted";
	case RELEASE_LOG_UNREADABLE: return "does not read as an entry";
	case RELEASE_LOG_OUTSIDE: return "a number outside its limits";
	case RELEASE_LOG_NO_PLACE: return "no place left";
	case RELEASE_LOG_ILL_FORMED: return "an ill-formed vote";
	case RELEASE_LOG_NOT_HOLDER: return "the process does not hold that store";
	case RELEASE_LOG_OTHER_LIST: return "a commit vote with another list is kept";
	case RELEASE_LOG_KEPT_ALREADY: return "a vote of that store is kept already";
	case RELEASE_LOG_HOLDS_ANOTHER: return "the process holds another store";
	case RELEASE_LOG_WRONG_TURN: return "a wrong turn of the process";
	default: return "unknown";
	}
}

/* --- One slot ----------------------------------------------------------- */

static inline uint32_t crc(uint32_t sum, uint8_t byte)
{
	sum ^= byte;
	for (int bit = 0; bit < 8; bit++)
		sum = (sum >> 1) ^ ((sum & 1) != 0 ? 0xedb88320u : 0);
	return sum;
}

/*
 * The CRC-32 of the record's index (four bytes, low byte first) and the
 * record, with its highest and its lowest bit set. Any single byte that is
 * spoiled shows, and so does a record in another's place. The two bits are in
 * two bytes, so one spoiled byte does not make the checksum 0, which stands
 * for a checksum that was not written.
 */
static inline uint32_t checksum(size_t index, const uint8_t *record, size_t size)
{
	uint32_t sum = 0xffffffffu;
	for (unsigned i = 0; i < 4; i++)
		sum = crc(sum, (uint8_t)(index >> (8 * i)));
	for (size_t i = 0; i < size; i++)
		sum = crc(sum, record[i]);
	return ~sum | 0x80000001u;
}

/* The slot of this record. `slot` has SLOT_SIZE bytes, in both forms. */
static inline void make_slot(const struct form *form, size_t index, const uint8_t *record,
    uint8_t *slot)
{
	uint32_t sum = checksum(index, record, form->record_size);
	memset(slot, 0, SLOT_SIZE);
	memcpy(slot, record, form->record_size);
	for (unsigned i = 0; i < CHECKSUM_SIZE; i++)
		slot[form->record_size + i] = (uint8_t)(sum >> (8 * i));
}

/* Whether these bytes of the slot are those that its record calls for. */
static inline int is_made_so(const struct form *form, size_t index, const uint8_t *slot,
    size_t length)
{
	uint8_t made[SLOT_SIZE];
	make_slot(form, index, slot, made);
	return memcmp(slot, made, length) == 0;
}

static inline int is_zero(const uint8_t *bytes, size_t length)
{
	while (length > 0 && bytes[length - 1] == 0)
		length--;
	return length == 0;
}

/* Whether the record has no turn where its form has none. */
static inline int turn_fits(const struct form *form, const uint8_t *slot)
{
	return form->has_turns || slot[TURN_BYTE] == 0;
}

/* Whether the record may be one that a host began to write, with zeros after what was written. The
   first record is a take, since nobody can vote before; and a take is 0 but for its kind, process,
   store and turn. */
static inline int begins_well(const struct form *form, size_t index, const uint8_t *slot)
{
	if (slot[0] == RELEASE_LOG_KIND_VOTE)
		return index > 0;
	return slot[0] == RELEASE_LOG_KIND_TAKE && slot[2] == 0 && is_zero(slot + 4, TURN_BYTE - 4) &&
	    turn_fits(form, slot) && is_zero(slot + TURN_BYTE + 1, form->record_size - TURN_BYTE - 1);
}

/*
 * Whether a last slot, of which the file has `length` bytes, is one that was
 * not written to its end. Then the file ends within it, and what is there is
 * right so far; or the file was made longer before the bytes came, and there
 * are zeros from the checksum on. A checksum that is begun and goes on with
 * zeros is damage: an entry that was answered looks so if a byte is spoiled.
 */
static inline int is_torn(const struct form *form, size_t index, const uint8_t *slot, size_t length)
{
	int cut = length < form->slot_size && is_made_so(form, index, slot, length);
	int no_checksum = is_zero(slot + form->record_size, form->slot_size - form->record_size);
	return begins_well(form, index, slot) && (cut || no_checksum);
}

/* --- The file ----------------------------------------------------------- */

/* All that was written to `fd` goes to the disk. */
static inline void sync_to_disk(int fd, const char *name)
{
	while (fsync(fd) < 0)
		if (errno != EINTR)
			fail(name);
}

/* The name of a new file is on the disk when its folder is. */
static inline void sync_folder(const char *path)
{
	char *name = realpath(path, NULL);
	if (name == NULL)
		fail(path);
	const char *folder = dirname(name);
	int fd = open(folder, O_RDONLY | O_DIRECTORY);
	if (fd < 0)
		fail(folder);
	sync_to_disk(fd, folder);
	close(fd);
	free(name);
}

static inline void write_to_disk(int fd, const char *path, const uint8_t *bytes, size_t length,
    size_t at)
{
	size_t done = 0;
	while (done < length) {
		ssize_t put = pwrite(fd, bytes + done, length - done, (off_t)(at + done));
		if (put > 0)
			done += (size_t)put;
		else if (put == 0 || errno != EINTR)
			fail(path);
	}
	sync_to_disk(fd, path);
}

/* Opens the file and locks it. The end of the program, however it comes, frees it. */
static inline void open_slots(struct slots *slots, const char *path, int flags, int lock)
{
	struct stat about;
	slots->path = path;
	slots->fd = open(path, flags, 0666);
	if (slots->fd < 0 || fstat(slots->fd, &about) < 0)
		fail(path);
	if (slots->fd <= STDERR_FILENO) {
		/* Such a stream was closed, and what is printed to it would go to the file. */
		close(slots->fd);
		fprintf(stderr, "%s: standard input, output or error is closed\n", path);
		exit(1);
	}
	if (!S_ISREG(about.st_mode)) {
		fprintf(stderr, "%s: not a regular file\n", path);
		exit(1);
	}
	if (flock(slots->fd, lock | LOCK_NB) < 0) {
		if (errno != EWOULDBLOCK)
			fail(path);
		fprintf(stderr, "%s: in use by another program\n", path);
		exit(1);
	}
}

/* The slot, and how many of its bytes the file has; the others are 0. */
static inline size_t read_slot(const struct slots *slots, const struct form *form, size_t index,
    uint8_t *slot)
{
	size_t done = 0;
	memset(slot, 0, SLOT_SIZE);
	while (done < form->slot_size) {
		off_t at = (off_t)(index * form->slot_size + done);
		ssize_t got = pread(slots->fd, slot + done, form->slot_size - done, at);
		if (got == 0)
			break;
		if (got > 0)
			done += (size_t)got;
		else if (errno != EINTR)
			fail(slots->path);
	}
	return done;
}

/* What is wrong with a slot itself. */
static inline const char *slot_fault(const struct form *form, size_t index, const uint8_t *slot)
{
	if (!is_made_so(form, index, slot, form->record_size + CHECKSUM_SIZE))
		return "checksum wrong";
	if (!turn_fits(form, slot) || !is_made_so(form, index, slot, form->slot_size))
		return "a zero spoiled";
	return NULL;
}

/* What the library says of the first records, as those of a log with this limit. */
static inline uint32_t answer_to_records(const struct slots *slots, uint32_t stores, size_t count)
{
	uint8_t value;
	/* Every query goes through the records first, so any will do. */
	return release_log_outcome(stores, slots->records, sizeof slots->records, count, 0, &value, 1);
}

/* The slot becomes the next record, or the program ends. Behind a record of 12 bytes come zeros:
   the high half of its update. */
static inline void load_slot(struct slots *slots, const struct form *form, const uint8_t *slot)
{
	size_t index = slots->count;
	if (index == SLOTS_MOST) {
		fprintf(stderr, "%s: no room for record %zu; make SLOTS_MOST in slots.h larger than %d\n",
		    slots->path, index + 1, SLOTS_MOST);
		exit(1);
	}
	memset(record_at(slots, index), 0, RELEASE_LOG_RECORD_SIZE);
	memcpy(record_at(slots, index), slot, form->record_size);
	const char *fault = slot_fault(form, index, slot);
	uint32_t answer = answer_to_records(slots, slots->stores, index + 1);
	if (fault == NULL && answer == RELEASE_LOG_OUTSIDE &&
	    answer_to_records(slots, RELEASE_LOG_STORES, index + 1) == RELEASE_LOG_OK) {
		fprintf(stderr, "%s: record %zu is outside the limits of a small log; start without -s\n",
		    slots->path, index + 1);
		exit(1);
	}
	if (fault != NULL || answer != RELEASE_LOG_OK) {
		fprintf(stderr, "%s: record %zu is damaged: %s, answer=%" PRIu32 " %s\n", slots->path,
		    index + 1, fault == NULL ? "checksum right" : fault, answer, meaning(answer));
		exit(1);
	}
	slots->count++;
}

/* Loads the slots of a file just opened; 1 if there is one more that was not written to its end.
   Ends the program at any other damage. Nothing is written. */
static inline int load_slots(struct slots *slots, const struct form *form)
{
	uint8_t slot[SLOT_SIZE], next[SLOT_SIZE];
	size_t length = read_slot(slots, form, 0, slot);
	while (length > 0) {
		size_t next_length = read_slot(slots, form, slots->count + 1, next);
		if (next_length == 0 && is_torn(form, slots->count, slot, length))
			return 1;
		load_slot(slots, form, slot);
		memcpy(slot, next, SLOT_SIZE);
		length = next_length;
	}
	return 0;
}

#endif
