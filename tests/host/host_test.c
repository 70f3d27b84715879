/* Calls every entry point with buffers of the exact size, each from the heap, so that a memory
   checker sees a byte too far. Bytes that the library must not look at are never written. */
#include <pthread.h>
#include <stdio.h>
#include <stdlib.h>
#include <string.h>

#include "release_log.h"

/* What the header says of a call, and here also of all that a thread has on its stack. */
#define STACK_SIZE (48 * 1024)

/* Where a record has its turn. */
#define RECORD_TURN 7

/* The bytes of an update, and where it begins in a record and in a row. */
#define UPDATE_SIZE 8
#define RECORD_UPDATE 8
#define ROW_UPDATE 2

/* An update of which only the top byte is set. */
#define TOP_BYTE ((uint64_t)1 << 56)

/* The size of a record in version 1, with an update of four bytes. */
#define OLD_RECORD_SIZE 12

#define FULL RELEASE_LOG_STORES
#define SMALL RELEASE_LOG_SMALL_STORES

static int failures;

static void expect(const char *what, uint32_t got, uint32_t wanted)
{
	if (got != wanted) {
		printf("%s: %u, not %u\n", what, (unsigned)got, (unsigned)wanted);
		failures++;
	}
}

static void expect_bytes(const char *what, const uint8_t *got, const uint8_t *wanted, size_t n)
{
	if (memcmp(got, wanted, n) != 0) {
		printf("%s: other bytes\n", what);
		failures++;
	}
}

/* A copy on the heap of just these bytes; no byte at all for none. */
static uint8_t *lent(const void *bytes, size_t n)
{
	uint8_t *p = malloc(n);
	if (n > 0)
		memcpy(p, bytes, n);
	return p;
}

/* Process 1 holds store 0 and 2 holds store 1; they commit tx 4 with list 03. Process 2 is in its
   turn 3. */
static const uint8_t story[4][RELEASE_LOG_RECORD_SIZE] = {
	{0, 1, 0, 0, 0, 0, 0, 1},
	{0, 2, 0, 1, 0, 0, 0, 3},
	{1, 1, 0, 0, 4, 3, 1, 1, 0x0d, 0x0c, 0x0b, 0x0a, 0x04, 0x03, 0x02, 0x01},
	{1, 2, 1, 1, 4, 3, 1, 3, 0x0e},
};

/* The numbers of an entry: kind, process, by, store, tx, list, say and turn, and the update. */
struct numbers {
	uint32_t first[8];
	uint64_t update;
};

static const struct numbers third_take = {{0, 3, 0, 2, 0, 0, 0, 1}, 0};

static uint32_t add_in(uint32_t stores, uint8_t *records, size_t len, size_t count,
    const struct numbers *n)
{
	const uint32_t *f = n->first;
	return release_log_add(stores, records, len, count, f[0], f[1], f[2], f[3], f[4], f[5], f[6],
	    f[7], n->update);
}

static uint32_t add(uint8_t *records, size_t len, size_t count, const struct numbers *n)
{
	return add_in(FULL, records, len, count, n);
}

/* Every call with this limit on these records gives the refusal, whatever its own numbers and
   place, and writes nothing. */
static void expect_refused_in(const char *what, uint32_t stores, const void *bytes, size_t len,
    size_t count, uint32_t answer)
{
	static const struct numbers unreadable = {{9, 0, 0, 0, 0, 0, 0, 0}, 0};
	uint8_t *records = lent(bytes, len), *out = lent("x", 1);
	expect(what, add_in(stores, records, len, count, &third_take), answer);
	expect(what, add_in(stores, records, len, count, &unreadable), answer);
	expect(what, release_log_outcome(stores, records, len, count, 4, out, 1), answer);
	expect(what, release_log_outcome(stores, records, len, count, 99, out, 0), answer);
	expect(what, release_log_involvement(stores, records, len, count, 4, 0, out, 1), answer);
	expect(what, release_log_involvement(stores, records, len, count, 99, 99, out, 0), answer);
	expect(what, release_log_replay(stores, records, len, count, 2, out, 1), answer);
	expect(what, release_log_replay(stores, records, len, count, 99, out, 0), answer);
	expect_bytes(what, records, bytes, len);
	expect(what, out[0], 'x');
	free(records);
	free(out);
}

static void expect_refused(const char *what, const void *bytes, size_t len, size_t count,
    uint32_t answer)
{
	expect_refused_in(what, FULL, bytes, len, count, answer);
}

/* The queries on a buffer as long as the story. */
static uint32_t outcome(const uint8_t *records, size_t count, uint32_t tx, uint8_t *out, size_t len)
{
	return release_log_outcome(FULL, records, sizeof story, count, tx, out, len);
}

static uint32_t involvement(const uint8_t *records, size_t count, uint32_t tx, uint32_t store,
    uint8_t *out, size_t len)
{
	return release_log_involvement(FULL, records, sizeof story, count, tx, store, out, len);
}

static uint32_t replay(const uint8_t *records, size_t count, uint32_t store, uint8_t *out,
    size_t len)
{
	return release_log_replay(FULL, records, sizeof story, count, store, out, len);
}

/* The story, entry by entry, into a buffer that grows by one record of bytes never written. */
static void test_add(void)
{
	static const struct numbers calls[4] = {
		{{0, 1, 0, 0, 0, 0, 0, 0}, 0},
		{{0, 2, 0, 1, 0, 0, 0, 3}, 0},
		{{1, 1, 0, 0, 4, 3, 1, 0}, 0x010203040a0b0c0d},
		{{1, 2, 1, 1, 4, 3, 1, 3}, 0x0e},
	};
	for (size_t n = 0; n < 4; n++) {
		size_t len = (n + 1) * RELEASE_LOG_RECORD_SIZE;
		uint8_t *records = malloc(len);
		memcpy(records, story, n * RELEASE_LOG_RECORD_SIZE);
		expect("add", add(records, len, n, &calls[n]), RELEASE_LOG_OK);
		expect_bytes("add", records, story[0], len);
		free(records);
	}
}

/* Each refusal of a new entry after the story, in a buffer without and with place. */
static void test_add_refused(void)
{
	static const struct {
		uint32_t answer;
		struct numbers numbers;
	} cases[] = {
		{1, {{2, 3, 0, 2, 0, 0, 0, 1}, 0}},         {1, {{1, 1, 0, 0, 5, 1, 2, 1}, 0}},
		{1, {{0, 3, 1, 2, 0, 0, 0, 1}, 0}},         {1, {{0, 99, 0, 2, 256, 0, 0, 1}, 0}},
		{1, {{0, 3, 0, 2, 0, 0, 0, 1}, 1}},         {1, {{0, 3, 0, 2, 0, 0, 0, 1}, TOP_BYTE}},
		{1, {{0, 3, 0, 2, 0, 0, 1, 256}, 0}},       {1, {{1, 1, 0, 0, 5, 1, 2, 256}, 0}},
		{2, {{0, 0, 0, 2, 0, 0, 0, 1}, 0}},         {2, {{0, 16, 0, 2, 0, 0, 0, 1}, 0}},
		{2, {{0, 259, 0, 2, 0, 0, 0, 1}, 0}},       {2, {{0, 3, 0, 8, 0, 0, 0, 1}, 0}},
		{2, {{1, 1, 256, 0, 5, 1, 1, 1}, 0}},       {2, {{1, 1, 0, 0, 32, 1, 1, 1}, 0}},
		{2, {{1, 1, 0, 0, 5, 257, 1, 1}, 0}},       {2, {{0, 3, 0, 2, 0, 0, 0, 256}, 0}},
		{2, {{0, 3, 0, 2, 0, 0, 0, 257}, 0}},       {2, {{0, 3, 0, 2, 0, 0, 0, UINT32_MAX}, 0}},
		{2, {{1, 1, 0, 0, 5, 1, 1, 256}, 0}},       {2, {{1, 1, 0, 0, 5, 1, 1, 257}, 0}},
		{2, {{1, 1, 0, 0, 5, 1, 1, 1u << 31}, 0}},  {2, {{1, 1, 0, 0, 5, 2, 1, 256}, 0}},
		{2, {{0, 1, 0, 2, 0, 0, 0, 256}, 0}},       {7, {{1, 1, 0, 0, 5, 2, 1, 1}, 0}},
		{7, {{1, 1, 0, 1, 5, 3, 1, 1}, 0}},         {7, {{1, 1, 0, 0, 5, 1, 0, 1}, 1}},
		{7, {{1, 1, 0, 0, 5, 1, 0, 1}, TOP_BYTE}},  {7, {{1, 2, 0, 0, 5, 2, 1, 9}, 0}},
		{8, {{1, 2, 0, 0, 5, 1, 1, 1}, 0}},         {8, {{1, 2, 0, 0, 5, 1, 1, 3}, 0}},
		{9, {{1, 2, 1, 1, 4, 7, 1, 3}, 0}},         {9, {{1, 2, 1, 1, 4, 7, 1, 2}, 0}},
		{10, {{1, 2, 1, 1, 4, 3, 0, 3}, 0}},        {10, {{1, 2, 1, 1, 4, 3, 0, 4}, 0}},
		{11, {{0, 1, 0, 2, 0, 0, 0, 1}, 0}},        {11, {{0, 1, 0, 2, 0, 0, 0, 255}, 0}},
		{11, {{0, 1, 0, 1, 0, 0, 0, 2}, 0}},        {11, {{0, 2, 0, 0, 0, 0, 0, 1}, 0}},
		{12, {{0, 1, 0, 0, 0, 0, 0, 0}, 0}},        {12, {{0, 1, 0, 0, 0, 0, 0, 1}, 0}},
		{12, {{0, 2, 0, 1, 0, 0, 0, 0}, 0}},        {12, {{0, 2, 0, 1, 0, 0, 0, 2}, 0}},
		{12, {{0, 2, 0, 1, 0, 0, 0, 3}, 0}},        {12, {{1, 1, 0, 0, 5, 1, 1, 2}, 0}},
		{12, {{1, 1, 0, 0, 5, 1, 1, 255}, 0}},      {12, {{1, 2, 1, 1, 5, 2, 1, 0}, 0}},
		{12, {{1, 2, 1, 1, 5, 2, 1, 2}, 0}},        {12, {{1, 2, 1, 1, 5, 2, 0, 4}, 0}},
		{12, {{1, 2, 1, 0, 5, 3, 0, 1}, 0}},
	};
	for (size_t i = 0; i < sizeof cases / sizeof *cases; i++) {
		for (size_t more = 0; more <= RELEASE_LOG_RECORD_SIZE; more += RELEASE_LOG_RECORD_SIZE) {
			uint8_t *records = malloc(sizeof story + more);
			memcpy(records, story, sizeof story);
			expect("add refused", add(records, sizeof story + more, 4, &cases[i].numbers),
			    cases[i].answer);
			expect_bytes("add refused", records, story[0], sizeof story);
			free(records);
		}
	}
}

/* An accepted entry without place, one byte short of it, and in no buffer at all. */
static void test_no_place(void)
{
	uint8_t *records = lent(story, sizeof story);
	expect("full", add(records, sizeof story, 4, &third_take), RELEASE_LOG_NO_PLACE);
	expect_bytes("full", records, story[0], sizeof story);
	free(records);
	size_t short_of_it = sizeof story + RELEASE_LOG_RECORD_SIZE - 1;
	records = malloc(short_of_it);
	memcpy(records, story, sizeof story);
	expect("a byte short", add(records, short_of_it, 4, &third_take), RELEASE_LOG_NO_PLACE);
	free(records);
	expect("no buffer", add(NULL, 0, 0, &third_take), RELEASE_LOG_NO_PLACE);
}

/* An update has these bytes in its record, and in its row of a replay. */
static void expect_update(uint64_t update, const uint8_t bytes[UPDATE_SIZE])
{
	const struct numbers vote = {{1, 1, 0, 0, 5, 1, 1, 1}, update};
	uint8_t record[RELEASE_LOG_RECORD_SIZE] = {1, 1, 0, 0, 5, 1, 1, 1};
	uint8_t value[1 + RELEASE_LOG_ROW_SIZE] = {1, 1, 5};
	const size_t len = 2 * sizeof record;
	uint8_t *records = malloc(len), *out = malloc(sizeof value);
	memcpy(record + RECORD_UPDATE, bytes, UPDATE_SIZE);
	memcpy(value + 1 + ROW_UPDATE, bytes, UPDATE_SIZE);
	memcpy(records, story[0], sizeof record);
	expect("update", add(records, len, 1, &vote), RELEASE_LOG_OK);
	expect_bytes("update of a record", records + sizeof record, record, sizeof record);
	expect("update", release_log_replay(FULL, records, len, 2, 0, out, sizeof value),
	    RELEASE_LOG_OK);
	expect_bytes("update of a row", out, value, sizeof value);
	free(records);
	free(out);
}

/* Each of the eight bytes alone, and all of them. */
static void test_update(void)
{
	static const uint8_t all[UPDATE_SIZE] = {1, 2, 3, 4, 5, 6, 7, 8};
	for (size_t i = 0; i < UPDATE_SIZE; i++) {
		uint8_t bytes[UPDATE_SIZE] = {0};
		bytes[i] = 0xa5;
		expect_update((uint64_t)0xa5 << (8 * i), bytes);
	}
	expect_update(0x0807060504030201, all);
}

/* Counts beyond the buffer, among them those whose bytes wrap a size_t. */
static void test_count(void)
{
	size_t wraps = SIZE_MAX / RELEASE_LOG_RECORD_SIZE + 1;
	size_t counts[] = {5, SIZE_MAX, SIZE_MAX - 1, SIZE_MAX / 2, wraps - 1, wraps, wraps + 1,
	    wraps + 4, 2 * wraps};
	uint8_t out;
	for (size_t i = 0; i < sizeof counts / sizeof *counts; i++)
		expect_refused("count", story, sizeof story, counts[i], RELEASE_LOG_OUTSIDE);
	expect_refused("a byte short of a record", story, RELEASE_LOG_RECORD_SIZE - 1, 1,
	    RELEASE_LOG_OUTSIDE);
	expect("count of no buffer", release_log_outcome(FULL, NULL, 0, 1, 4, &out, 1),
	    RELEASE_LOG_OUTSIDE);
}

/* One byte of a record spoiled. */
static void test_records(void)
{
	static const struct {
		uint32_t answer;
		size_t record, at;
		uint8_t byte;
	} faults[] = {
		{1, 0, 0, 2},  {1, 0, 2, 1},  {1, 0, 6, 1},  {1, 0, 8, 1},  {1, 0, 15, 1}, {1, 2, 6, 2},
		{2, 0, 1, 0},  {2, 1, 1, 16}, {2, 0, 3, 8},  {2, 2, 4, 32}, {2, 2, 2, 8},  {7, 2, 5, 2},
		{7, 2, 6, 0},  {8, 2, 1, 2},  {9, 3, 5, 7},  {11, 1, 1, 1}, {12, 0, 7, 2}, {12, 1, 7, 0},
		{12, 2, 7, 2}, {12, 3, 7, 0}, {12, 3, 7, 1}, {12, 3, 7, 4}, {12, 3, 7, 255},
	};
	uint8_t records[4][RELEASE_LOG_RECORD_SIZE];
	for (size_t i = 0; i < sizeof faults / sizeof *faults; i++) {
		memcpy(records, story, sizeof story);
		records[faults[i].record][faults[i].at] = faults[i].byte;
		expect_refused("records", records, sizeof records, 4, faults[i].answer);
	}
	/* An abort of whose update only the top byte is set. */
	memcpy(records, story, sizeof story);
	memset(records[2] + RECORD_UPDATE, 0, UPDATE_SIZE);
	records[2][6] = RELEASE_LOG_SAY_ABORT;
	records[2][15] = 1;
	expect_refused("an abort with an update", records, sizeof records, 3, RELEASE_LOG_ILL_FORMED);
	memcpy(records, story, sizeof story);
	memcpy(records[3], story[2], sizeof story[2]);
	expect_refused("twice", records, sizeof records, 4, RELEASE_LOG_KEPT_ALREADY);
}

/* A limit that is neither of the two is tried before the count, the records and all else. Of some
   the low byte is one of the two. */
static void test_limit(void)
{
	static const uint32_t wrong[] = {0, 1, 2, 4, 7, 9, 32, 255, 256, 259, 264, 1u << 31,
	    (1u << 31) + 3, UINT32_MAX};
	uint8_t unreadable[4][RELEASE_LOG_RECORD_SIZE], eleven[4][RELEASE_LOG_RECORD_SIZE];
	memcpy(unreadable, story, sizeof story);
	unreadable[0][0] = 2;
	memcpy(eleven, story, sizeof story);
	eleven[1][1] = 1;
	for (size_t i = 0; i < sizeof wrong / sizeof *wrong; i++) {
		const uint32_t stores = wrong[i];
		expect_refused_in("a wrong limit", stores, story, sizeof story, 4, RELEASE_LOG_OUTSIDE);
		expect_refused_in("and count", stores, story, sizeof story, 5, RELEASE_LOG_OUTSIDE);
		expect_refused_in("before 1", stores, unreadable, sizeof story, 4, RELEASE_LOG_OUTSIDE);
		expect_refused_in("before 11", stores, eleven, sizeof story, 4, RELEASE_LOG_OUTSIDE);
		expect_refused_in("no records", stores, story, 0, 0, RELEASE_LOG_OUTSIDE);
	}
	for (uint32_t stores = SMALL; stores <= FULL; stores += FULL - SMALL) {
		expect_refused_in("1", stores, unreadable, sizeof story, 4, RELEASE_LOG_UNREADABLE);
		expect_refused_in("11", stores, eleven, sizeof story, 4, RELEASE_LOG_HOLDS_ANOTHER);
	}
}

/* One byte of a record of the story, and what the records then are with each limit. */
static void test_records_of_small(void)
{
	static const struct {
		uint32_t small, full;
		size_t record, at;
		uint8_t byte;
	} changes[] = {
		/* store: process 1 or 2 does not hold its store when it votes */
		{8, 8, 0, 3, 2}, {2, 8, 0, 3, 3}, {2, 8, 0, 3, 7}, {2, 2, 0, 3, 8}, {2, 8, 1, 3, 3},
		/* store and by of a vote whose list is 03 */
		{7, 7, 2, 3, 2}, {2, 7, 2, 3, 3}, {2, 2, 2, 3, 8}, {7, 7, 2, 2, 2}, {2, 7, 2, 2, 3},
		{2, 2, 2, 2, 8},
		/* tx: the two votes are on different ones then, and both are kept */
		{0, 0, 2, 4, 7}, {2, 0, 2, 4, 8}, {2, 0, 2, 4, 31}, {2, 2, 2, 4, 32}, {2, 0, 3, 4, 8},
		/* list: that of the second vote is another than that of the first */
		{9, 9, 3, 5, 0x07}, {2, 9, 3, 5, 0x0b}, {2, 9, 3, 5, 0xff}, {9, 9, 2, 5, 0x07},
		{2, 9, 2, 5, 0x0b}, {7, 7, 3, 5, 0x04}, {2, 7, 3, 5, 0x08},
		/* say and kind go before */
		{1, 1, 2, 6, 2}, {1, 1, 0, 0, 2},
	};
	uint8_t records[4][RELEASE_LOG_RECORD_SIZE], out;
	const size_t len = sizeof records;
	for (size_t i = 0; i < sizeof changes / sizeof *changes; i++) {
		const uint32_t wanted[2] = {changes[i].small, changes[i].full};
		memcpy(records, story, sizeof story);
		records[changes[i].record][changes[i].at] = changes[i].byte;
		for (size_t n = 0; n < 2; n++) {
			const uint32_t stores = n == 0 ? SMALL : FULL;
			if (wanted[n] != RELEASE_LOG_OK)
				expect_refused_in("a byte", stores, records, len, 4, wanted[n]);
			else
				expect("a byte", release_log_outcome(stores, records[0], len, 4, 4, &out, 1),
				    RELEASE_LOG_OK);
		}
	}
}

/* An entry is accepted behind these records, which stay as they are, and stored so. */
static void expect_stored(const char *what, const void *before, size_t count,
    const struct numbers *entry, uint8_t turn)
{
	const size_t len = (count + 1) * RELEASE_LOG_RECORD_SIZE;
	uint8_t *records = malloc(len);
	if (count > 0)
		memcpy(records, before, len - RELEASE_LOG_RECORD_SIZE);
	expect(what, add(records, len, count, entry), RELEASE_LOG_OK);
	if (count > 0)
		expect_bytes(what, records, before, len - RELEASE_LOG_RECORD_SIZE);
	expect(what, records[len - RELEASE_LOG_RECORD_SIZE + RECORD_TURN], turn);
	free(records);
}

/* The numbers with that turn. */
static struct numbers in_turn(struct numbers n, uint32_t turn)
{
	n.first[RECORD_TURN] = turn;
	return n;
}

/* Each turn of a call and of a record. A first take of it is accepted, and 0 is stored as 1. Then
   the process votes in this turn and in no other, and takes its store again in a later one. */
static void test_turns(void)
{
	static const struct numbers take = {{0, 1, 0, 0, 0, 0, 0, 0}, 0};
	static const struct numbers vote = {{1, 1, 0, 0, 5, 1, 1, 0}, 0};
	uint8_t records[2][RELEASE_LOG_RECORD_SIZE] = {{0, 1}};
	for (uint32_t turn = 0; turn <= RELEASE_LOG_TURNS; turn++) {
		const uint32_t kept = turn == 0 ? 1 : turn;
		const uint32_t others[] = {0, 1, kept - 1, kept, kept + 1, 255, 256, kept + 256, UINT32_MAX};
		struct numbers entry = in_turn(take, turn);
		expect_stored("a take of a turn", NULL, 0, &entry, (uint8_t)kept);
		entry = in_turn(vote, turn);
		records[0][RECORD_TURN] = (uint8_t)turn;
		expect_stored("a vote of that turn", records, 1, &entry, (uint8_t)kept);
		for (size_t i = 0; i < sizeof others / sizeof *others; i++) {
			const uint32_t other = others[i] == 0 ? 1 : others[i];
			const uint32_t outside = other > RELEASE_LOG_TURNS ? RELEASE_LOG_OUTSIDE : 0;
			const uint32_t wrong = outside != 0 ? outside : RELEASE_LOG_WRONG_TURN;
			entry = in_turn(vote, others[i]);
			expect("a vote of some turn", add(records[0], sizeof records, 1, &entry),
			    other == kept ? RELEASE_LOG_OK : wrong);
			entry = in_turn(take, others[i]);
			expect("its store again", add(records[0], sizeof records, 1, &entry),
			    other > kept ? outside : wrong);
		}
	}
}

/* Process 1 comes back in turn 2, and holds store 0 again or not. */
static void test_back(void)
{
	static const struct numbers early_vote = {{1, 1, 0, 0, 5, 1, 1, 1}, 0};
	static const struct numbers late_vote = {{1, 1, 0, 0, 5, 1, 1, 2}, 0};
	static const struct numbers take_0_early = {{0, 1, 0, 0, 0, 0, 0, 1}, 0};
	static const struct numbers take_0_late = {{0, 1, 0, 0, 0, 0, 0, 2}, 0};
	static const struct numbers take_2_early = {{0, 1, 0, 2, 0, 0, 0, 1}, 0};
	static const struct numbers take_2_late = {{0, 1, 0, 2, 0, 0, 0, 2}, 0};
	static const struct numbers takeover = {{0, 4, 0, 0, 0, 0, 0, 1}, 0};
	uint8_t records[8][RELEASE_LOG_RECORD_SIZE];
	const size_t len = sizeof records;
	memcpy(records, story, sizeof story);
	/* It takes its own store again, without anybody between. */
	expect("early vote", add(records[0], len, 4, &early_vote), RELEASE_LOG_OK);
	expect("own store", add(records[0], len, 4, &take_0_late), RELEASE_LOG_OK);
	expect("early vote behind it", add(records[0], len, 5, &early_vote), RELEASE_LOG_WRONG_TURN);
	expect("late vote", add(records[0], len, 5, &late_vote), RELEASE_LOG_OK);
	/* Process 4 takes the store, and process 1 does not come back: another store is free to it,
	   this one only in a later turn. */
	expect("takeover", add(records[0], len, 4, &takeover), RELEASE_LOG_OK);
	expect("held before", add(records[0], len, 5, &take_0_early), RELEASE_LOG_WRONG_TURN);
	expect("never held", add(records[0], len, 5, &take_2_early), RELEASE_LOG_OK);
	expect("held before, late", add(records[0], len, 5, &take_0_late), RELEASE_LOG_OK);
	/* Its turn 2 counts for every store from its take on. */
	expect("own store", add(records[0], len, 4, &take_0_late), RELEASE_LOG_OK);
	expect("takeover", add(records[0], len, 5, &takeover), RELEASE_LOG_OK);
	expect("never held, early", add(records[0], len, 6, &take_2_early), RELEASE_LOG_WRONG_TURN);
	expect("never held, late", add(records[0], len, 6, &take_2_late), RELEASE_LOG_OK);
	/* A store that it held in turn 1 only is one that it held, in turn 2 too. */
	expect("takeover", add(records[0], len, 4, &takeover), RELEASE_LOG_OK);
	expect("never held, late", add(records[0], len, 5, &take_2_late), RELEASE_LOG_OK);
	expect("takeover of 2", release_log_add_take(FULL, records[0], len, 6, 5, 2, 1),
	    RELEASE_LOG_OK);
	expect("held early", add(records[0], len, 7, &take_0_late), RELEASE_LOG_WRONG_TURN);
	expect("held early", release_log_add_take(FULL, records[0], len, 7, 1, 0, 3), RELEASE_LOG_OK);
}

/* Records of version 2, whose turns are 0: they are read as they are, and stay so. */
static void test_zero_turns(void)
{
	static const struct numbers vote = {{1, 1, 0, 0, 5, 1, 1, 1}, 0};
	static const struct numbers again = {{0, 2, 0, 1, 0, 0, 0, 0}, 0};
	uint8_t zeros[4][RELEASE_LOG_RECORD_SIZE], *records, *out = malloc(RELEASE_LOG_REPLAY_ROOM);
	memcpy(zeros, story, sizeof story);
	for (size_t n = 0; n < 4; n++)
		zeros[n][RECORD_TURN] = 0;
	expect_stored("behind turns of 0", zeros, 4, &vote, 1);
	expect_stored("behind turns of 0", zeros, 4, &third_take, 1);
	records = lent(zeros, sizeof zeros);
	expect("turns of 0", add(records, sizeof zeros, 4, &again), RELEASE_LOG_WRONG_TURN);
	expect("turns of 0", outcome(records, 4, 4, out, 1), RELEASE_LOG_OK);
	expect("turns of 0", out[0], RELEASE_LOG_OUTCOME_COMMIT);
	expect("turns of 0", replay(records, 4, 1, out, 11), RELEASE_LOG_OK);
	expect("turns of 0", out[0], 1);
	expect_bytes("turns of 0", records, zeros[0], sizeof zeros);
	/* A 0 beside a 1 is the same turn. */
	records[RECORD_TURN] = 1;
	expect("0 and 1", outcome(records, 4, 4, out, 1), RELEASE_LOG_OK);
	free(records);
	free(out);
}

/* What stands after the counted records is not looked at. */
static void test_records_counted(void)
{
	uint8_t *records = malloc(sizeof story), *out = malloc(1);
	memcpy(records, story, 3 * RELEASE_LOG_RECORD_SIZE);
	expect("three", outcome(records, 3, 4, out, 1), RELEASE_LOG_OK);
	expect("three", out[0], RELEASE_LOG_OUTCOME_OPEN);
	free(records);
	free(out);
}

/* Records of version 1, lent with their count: the buffer is too short for so many, or the first
   one, a take, has an update, which is the start of the second one. Byte 7 is 0 in them. */
static void test_old_records(void)
{
	uint8_t old[RELEASE_LOG_RECORDS_ROOM] = {0};
	const size_t len = 4 * OLD_RECORD_SIZE;
	for (size_t n = 0; n < 4; n++) {
		memcpy(old + n * OLD_RECORD_SIZE, story[n], OLD_RECORD_SIZE);
		old[n * OLD_RECORD_SIZE + RECORD_TURN] = 0;
	}
	for (size_t count = 1; count <= 4; count++) {
		uint32_t answer = count <= len / RELEASE_LOG_RECORD_SIZE ? 1 : 2;
		expect_refused("old records", old, len, count, answer);
		expect_refused("old records in a long buffer", old, sizeof old, count, 1);
	}
	expect_refused("one old record", old, OLD_RECORD_SIZE, 1, RELEASE_LOG_OUTSIDE);
}

static void test_outcome(void)
{
	uint8_t *records = lent(story, sizeof story), *out = lent("xyz", 3);
	expect("outcome", outcome(records, 4, 4, out, 3), RELEASE_LOG_OK);
	expect_bytes("outcome", out, (const uint8_t *)"\1yz", 3);
	expect("outcome", outcome(records, 3, 4, out, 1), RELEASE_LOG_OK);
	expect("outcome", out[0], RELEASE_LOG_OUTCOME_OPEN);
	expect("outcome of 32", outcome(records, 4, 32, out, 0), RELEASE_LOG_OUTSIDE);
	expect("outcome of 260", outcome(records, 4, 260, out, 1), RELEASE_LOG_OUTSIDE);
	expect("outcome without place", outcome(records, 4, 4, NULL, 0), RELEASE_LOG_NO_PLACE);
	expect("outcome of nothing", release_log_outcome(FULL, NULL, 0, 0, 4, out, 1), RELEASE_LOG_OK);
	expect("outcome of nothing", out[0], RELEASE_LOG_OUTCOME_OPEN);
	free(records);
	free(out);
}

static void test_involvement(void)
{
	static const uint8_t wanted[3] = {
		RELEASE_LOG_INVOLVED_YES, RELEASE_LOG_INVOLVED_YES, RELEASE_LOG_INVOLVED_NO};
	uint8_t *records = lent(story, sizeof story), *out = lent("xy", 2);
	for (uint32_t store = 0; store < 3; store++) {
		expect("involvement", involvement(records, 4, 4, store, out, 2), RELEASE_LOG_OK);
		expect("involvement", out[0], wanted[store]);
		expect("involvement", out[1], 'y');
	}
	expect("involvement", involvement(records, 4, 5, 0, out, 1), RELEASE_LOG_OK);
	expect("involvement", out[0], RELEASE_LOG_INVOLVED_UNKNOWN);
	expect("involvement of tx 32", involvement(records, 4, 32, 0, out, 1), RELEASE_LOG_OUTSIDE);
	expect("involvement of store 8", involvement(records, 4, 4, 8, out, 0), RELEASE_LOG_OUTSIDE);
	expect("involvement without place", involvement(records, 4, 4, 0, out, 0), RELEASE_LOG_NO_PLACE);
	expect("involvement", out[0], RELEASE_LOG_INVOLVED_UNKNOWN);
	free(records);
	free(out);
}

/* P4: an abort of store 3 names it alone, then a commit vote of store 0 names 0 and 1. The list of
   the commit vote alone says who is involved. */
static void test_involvement_by_two_lists(void)
{
	enum {
		NO = RELEASE_LOG_INVOLVED_NO,
		YES = RELEASE_LOG_INVOLVED_YES,
		UNKNOWN = RELEASE_LOG_INVOLVED_UNKNOWN
	};
	static const struct numbers calls[4] = {
		{{0, 4, 0, 3, 0, 0x00, 0, 1}, 0},
		{{0, 1, 0, 0, 0, 0x00, 0, 1}, 0},
		{{1, 4, 3, 3, 0, 0x08, 0, 1}, 0},
		{{1, 1, 0, 0, 0, 0x03, 1, 1}, 0},
	};
	/* by the abort alone, and with the commit vote */
	static const uint8_t wanted[2][8] = {
		{UNKNOWN, UNKNOWN, UNKNOWN, YES, UNKNOWN, UNKNOWN, UNKNOWN, UNKNOWN},
		{YES, YES, NO, NO, NO, NO, NO, NO},
	};
	size_t len = 4 * RELEASE_LOG_RECORD_SIZE;
	uint8_t *records = malloc(len), *out = lent("x", 1);
	for (size_t n = 0; n < 4; n++) {
		expect("two lists", add(records, len, n, &calls[n]), RELEASE_LOG_OK);
		for (uint32_t store = 0; n >= 2 && store < 8; store++) {
			expect("two lists",
			    release_log_involvement(FULL, records, len, n + 1, 0, store, out, 1),
			    RELEASE_LOG_OK);
			expect("two lists", out[0], wanted[n - 2][store]);
		}
	}
	free(records);
	free(out);
}

static void test_replay(void)
{
	static const uint8_t value[11] = {1, 1, 4, 0x0d, 0x0c, 0x0b, 0x0a, 0x04, 0x03, 0x02, 0x01};
	static const char dots[12] = "............";
	const size_t size = sizeof value;
	uint8_t *records = lent(story, sizeof story), *out = lent(dots, size + 1), *exact = malloc(size);
	expect("replay", replay(records, 4, 0, exact, size), RELEASE_LOG_OK);
	expect_bytes("replay", exact, value, size);
	expect("replay a byte short", replay(records, 4, 0, out, size - 1), RELEASE_LOG_NO_PLACE);
	expect_bytes("replay a byte short", out, (const uint8_t *)dots, size + 1);
	expect("replay", replay(records, 4, 0, out, size + 1), RELEASE_LOG_OK);
	expect_bytes("replay", out, value, size);
	expect("replay", out[size], '.');
	expect("replay of no row", replay(records, 4, 2, out, 1), RELEASE_LOG_OK);
	expect("replay of no row", out[0], 0);
	expect("replay of store 8", replay(records, 4, 8, out, 0), RELEASE_LOG_OUTSIDE);
	expect("replay without place", replay(records, 4, 2, NULL, 0), RELEASE_LOG_NO_PLACE);
	free(records);
	free(out);
	free(exact);
}

/* A log in a buffer of its own. */
struct log {
	uint32_t stores;
	size_t count;
	uint8_t *records;
};

#define LOG_ROOM (16 * RELEASE_LOG_RECORD_SIZE)

static struct log open_log(uint32_t stores)
{
	struct log log = {stores, 0, malloc(LOG_ROOM)};
	memset(log.records, 0xee, LOG_ROOM);
	return log;
}

/* The entry is answered so. If it is accepted its record is behind the others, and nothing else of
   the buffer changes. */
static void enter(struct log *log, const struct numbers *entry, uint32_t wanted)
{
	const size_t at = log->count * RELEASE_LOG_RECORD_SIZE;
	uint8_t *before = lent(log->records, LOG_ROOM);
	uint32_t answer = add_in(log->stores, log->records, LOG_ROOM, log->count, entry);
	expect("enter", answer, wanted);
	if (answer == RELEASE_LOG_OK) {
		memcpy(before + at, log->records + at, RELEASE_LOG_RECORD_SIZE);
		log->count++;
	}
	expect_bytes("enter", log->records, before, LOG_ROOM);
	free(before);
}

enum query {
	OUTCOME,
	INVOLVEMENT,
	REPLAY
};

/* The query's answer; `out` has nothing but its value, and 0xee behind it. */
static uint32_t ask(const struct log *log, enum query query, uint32_t tx, uint32_t store,
    uint8_t out[RELEASE_LOG_REPLAY_ROOM])
{
	const size_t room = RELEASE_LOG_REPLAY_ROOM;
	memset(out, 0xee, room);
	if (query == OUTCOME)
		return release_log_outcome(log->stores, log->records, LOG_ROOM, log->count, tx, out, room);
	if (query == INVOLVEMENT)
		return release_log_involvement(log->stores, log->records, LOG_ROOM, log->count, tx, store,
		    out, room);
	return release_log_replay(log->stores, log->records, LOG_ROOM, log->count, store, out, room);
}

/* Both logs give equal answers and values to every query within the small limits. */
static void expect_same_values(const struct log *one, const struct log *other)
{
	uint8_t out[RELEASE_LOG_REPLAY_ROOM], too[RELEASE_LOG_REPLAY_ROOM];
	for (uint32_t query = OUTCOME; query <= REPLAY; query++) {
		for (uint32_t i = 0; i < RELEASE_LOG_SMALL_TRANSACTIONS * SMALL; i++) {
			expect("one", ask(one, query, i / SMALL, i % SMALL, out), RELEASE_LOG_OK);
			expect("other", ask(other, query, i / SMALL, i % SMALL, too), RELEASE_LOG_OK);
			expect_bytes("both", out, too, sizeof out);
		}
	}
}

/* The values of a log after the entries within the small limits below. */
static void expect_values_within(const struct log *log)
{
	/* transactions 0, 3 and 7 are committed and 2 is aborted; of the others no vote is kept */
	static const uint8_t outcomes[] = {1, 0, 2, 1, 0, 0, 0, 1};
	static const uint8_t involved[][SMALL] = {
		{1, 1, 0}, {2, 2, 2}, {1, 2, 1}, {1, 0, 0}, {2, 2, 2}, {2, 2, 2}, {2, 2, 2}, {0, 1, 0}};
	static const uint8_t replays[SMALL][1 + 2 * RELEASE_LOG_ROW_SIZE] = {
		{2, 1, 0, 0x0a, 0, 0, 0, 0, 0, 0, 0, 2, 3, 0xff, 0xff, 0xff, 0xff, 0xff, 0xff, 0xff, 0xff},
		{2, 1, 0, 0x0c, 0, 0, 0, 0, 0, 0, 0, 1, 7, 0x0b},
		{0},
	};
	uint8_t out[RELEASE_LOG_REPLAY_ROOM];
	for (uint32_t tx = 0; tx < RELEASE_LOG_SMALL_TRANSACTIONS; tx++) {
		expect("within", ask(log, OUTCOME, tx, 0, out), RELEASE_LOG_OK);
		expect("outcome within", out[0], outcomes[tx]);
		for (uint32_t store = 0; store < SMALL; store++) {
			expect("within", ask(log, INVOLVEMENT, tx, store, out), RELEASE_LOG_OK);
			expect("involvement within", out[0], involved[tx][store]);
		}
	}
	for (uint32_t store = 0; store < SMALL; store++) {
		const size_t rows = replays[store][0];
		expect("within", ask(log, REPLAY, 0, store, out), RELEASE_LOG_OK);
		expect_bytes("replay within", out, replays[store], 1 + rows * RELEASE_LOG_ROW_SIZE);
	}
}

/* A new entry, and what it is answered. */
struct answered {
	uint32_t answer;
	struct numbers entry;
};

/* Entries within the small limits: two logs of different limits, used in turn, answer alike. */
static void enter_within(struct log *small, struct log *full)
{
	static const struct answered within[] = {
		{0, {{0, 1, 0, 0, 0, 0, 0, 1}, 0}},
		{0, {{0, 2, 0, 1, 0, 0, 0, 0}, 0}},
		{0, {{0, 3, 0, 2, 0, 0, 0, 255}, 0}},
		{11, {{0, 1, 0, 2, 0, 0, 0, 1}, 0}},
		{12, {{0, 3, 0, 2, 0, 0, 0, 255}, 0}},
		{0, {{1, 1, 0, 0, 0, 0x03, 1, 1}, 0x0a}},
		/* tx 7 commits at once, while 0 runs: group 1 */
		{0, {{1, 2, 1, 1, 7, 0x02, 1, 1}, 0x0b}},
		{9, {{1, 2, 1, 1, 0, 0x07, 1, 1}, 0x0c}},
		/* tx 0 commits, which ran when group 1 was begun */
		{0, {{1, 2, 1, 1, 0, 0x03, 1, 1}, 0x0c}},
		{10, {{1, 2, 1, 1, 0, 0x03, 0, 1}, 0}},
		{12, {{1, 3, 2, 2, 1, 0x04, 1, 1}, 0}},
		{8, {{1, 3, 1, 1, 1, 0x02, 1, 255}, 0}},
		{7, {{1, 3, 2, 2, 1, 0x03, 1, 255}, 0}},
		{1, {{1, 3, 2, 2, 1, 0x04, 2, 255}, 0}},
		/* an abort on behalf of store 0 */
		{0, {{1, 3, 2, 0, 2, 0x05, 0, 255}, 0}},
		/* tx 3 commits at once: group 2 */
		{0, {{1, 1, 0, 0, 3, 0x01, 1, 1}, UINT64_MAX}},
	};
	for (size_t i = 0; i < sizeof within / sizeof *within; i++) {
		enter(small, &within[i].entry, within[i].answer);
		enter(full, &within[i].entry, within[i].answer);
		expect_same_values(small, full);
	}
	expect_bytes("records within", small->records, full->records, LOG_ROOM);
	expect("records within", (uint32_t)small->count, 8);
}

/* Entries outside the small limits: 2, and what the full log answers. */
static void enter_outside(struct log *small, struct log *full)
{
	static const struct answered outside[] = {
		{0, {{0, 4, 0, 3, 0, 0, 0, 1}, 0}},
		{12, {{0, 4, 0, 3, 0, 0, 0, 1}, 0}},
		{11, {{0, 1, 0, 3, 0, 0, 0, 1}, 0}},
		/* tx 4 commits at once, and then 8: groups 3 and 4 */
		{0, {{1, 4, 3, 3, 4, 0x08, 1, 1}, 0x0d}},
		{0, {{1, 1, 0, 0, 8, 0x01, 1, 1}, 0x0e}},
		{0, {{1, 1, 0, 0, 5, 0x09, 1, 1}, 0x0f}},
		{0, {{1, 1, 0, 3, 6, 0x09, 0, 1}, 0}},
		{8, {{1, 1, 3, 0, 6, 0x09, 0, 1}, 0}},
		{9, {{1, 1, 0, 0, 0, 0x0b, 1, 1}, 0}},
		{10, {{1, 2, 1, 0, 2, 0x83, 0, 1}, 0}},
		{7, {{1, 1, 0, 0, 1, 0x08, 1, 1}, 0}},
		{2, {{1, 1, 0, 0, 32, 0x01, 1, 1}, 0}},
		{2, {{0, 5, 0, 8, 0, 0, 0, 1}, 0}},
	};
	for (size_t i = 0; i < sizeof outside / sizeof *outside; i++) {
		enter(small, &outside[i].entry, RELEASE_LOG_OUTSIDE);
		enter(full, &outside[i].entry, outside[i].answer);
	}
	expect("records outside", (uint32_t)small->count, 8);
	expect("records outside", (uint32_t)full->count, 8 + 5);
}

/* Queries outside the small limits: 2, and what the full log answers and writes. */
static void ask_outside(const struct log *small, const struct log *full)
{
	static const struct {
		enum query query;
		uint32_t tx, store, answer;
		uint8_t value;
	} queries[] = {
		{OUTCOME, 8, 0, 0, RELEASE_LOG_OUTCOME_COMMIT},
		{OUTCOME, 31, 0, 0, RELEASE_LOG_OUTCOME_OPEN},
		{OUTCOME, 32, 0, 2, 0xee}, {OUTCOME, 256, 0, 2, 0xee},
		{INVOLVEMENT, 8, 0, 0, RELEASE_LOG_INVOLVED_YES},
		{INVOLVEMENT, 8, 3, 0, RELEASE_LOG_INVOLVED_NO},
		{INVOLVEMENT, 5, 3, 0, RELEASE_LOG_INVOLVED_YES},
		{INVOLVEMENT, 0, 7, 0, RELEASE_LOG_INVOLVED_NO},
		{INVOLVEMENT, 1, 3, 0, RELEASE_LOG_INVOLVED_UNKNOWN},
		{INVOLVEMENT, 0, 8, 2, 0xee}, {INVOLVEMENT, 32, 0, 2, 0xee},
		{REPLAY, 0, 3, 0, 1}, {REPLAY, 0, 7, 0, 0},
		{REPLAY, 0, 8, 2, 0xee}, {REPLAY, 0, 258, 2, 0xee},
	};
	static const uint8_t row[RELEASE_LOG_ROW_SIZE] = {3, 4, 0x0d};
	uint8_t out[RELEASE_LOG_REPLAY_ROOM], nothing[RELEASE_LOG_REPLAY_ROOM];
	memset(nothing, 0xee, sizeof nothing);
	for (size_t i = 0; i < sizeof queries / sizeof *queries; i++) {
		const uint32_t tx = queries[i].tx, store = queries[i].store;
		expect("outside small", ask(small, queries[i].query, tx, store, out), RELEASE_LOG_OUTSIDE);
		expect_bytes("outside small", out, nothing, sizeof out);
		expect("outside", ask(full, queries[i].query, tx, store, out), queries[i].answer);
		expect("outside", out[0], queries[i].value);
		if (queries[i].query == REPLAY && out[0] == 1)
			expect_bytes("row outside", out + 1, row, sizeof row);
	}
}

/* A one-saw workshop beside the full service in the same host. */
static void test_side_by_side(void)
{
	struct log small = open_log(SMALL), full = open_log(FULL);
	enter_within(&small, &full);
	expect_values_within(&small);
	expect_values_within(&full);
	enter_outside(&small, &full);
	ask_outside(&small, &full);
	/* The small log is as it was, also with its records lent as a full one. The full one is no
	   small one any more. */
	expect_values_within(&small);
	small.stores = FULL;
	expect_values_within(&small);
	expect_refused_in("no small log", SMALL, full.records, LOG_ROOM, full.count,
	    RELEASE_LOG_OUTSIDE);
	free(small.records);
	free(full.records);
}

/* A take of each store, one process's takes of all turns and the votes of all stores on all
   transactions, and then each query, on a stack of the thread's own. */
static void *many_calls(void *limit)
{
	const uint32_t n = *(const uint32_t *)limit, last = n == SMALL ? 7 : 31;
	const size_t room = RELEASE_LOG_RECORDS_ROOM, out_room = RELEASE_LOG_REPLAY_ROOM;
	uint8_t *records = malloc(room), *out = malloc(out_room);
	size_t count = 0;
	for (uint32_t s = 0; s < n; s++, count++)
		expect("many takes", release_log_add_take(n, records, room, count, s + 1, s, 0),
		    RELEASE_LOG_OK);
	for (uint32_t turn = 2; turn <= RELEASE_LOG_TURNS; turn++, count++)
		expect("many turns", release_log_add_take(n, records, room, count, 1, 0, turn),
		    RELEASE_LOG_OK);
	for (uint32_t i = 0; i < n * (last + 1); i++, count++) {
		uint32_t s = i % n, tx = i / n;
		struct release_log_vote vote = {
			.process = s + 1, .by = s, .store = s, .tx = tx, .list = n == SMALL ? 0x07 : 0xff,
			.say = RELEASE_LOG_SAY_COMMIT, .turn = s == 0 ? RELEASE_LOG_TURNS : 0,
			.update = i * UINT64_C(0x0101010101010101)};
		expect("many votes", release_log_add_vote(n, records, room, count, &vote), RELEASE_LOG_OK);
	}
	expect("many", (uint32_t)count, n == SMALL ? 3 + 254 + 24 : 8 + 254 + 256);
	expect("many", release_log_outcome(n, records, room, count, last, out, 1), RELEASE_LOG_OK);
	expect("many", out[0], RELEASE_LOG_OUTCOME_COMMIT);
	expect("many", release_log_involvement(n, records, room, count, last, n - 1, out, 1),
	    RELEASE_LOG_OK);
	expect("many", out[0], RELEASE_LOG_INVOLVED_YES);
	expect("many", release_log_replay(n, records, room, count, n - 1, out, out_room),
	    RELEASE_LOG_OK);
	expect("many", out[0], last + 1);
	free(records);
	free(out);
	return NULL;
}

static void test_stack(void)
{
	uint32_t limits[] = {FULL, SMALL};
	pthread_attr_t small;
	pthread_t thread;
	int made = pthread_attr_init(&small) == 0 && pthread_attr_setstacksize(&small, STACK_SIZE) == 0;
	for (size_t i = 0; i < 2; i++)
		made = made && pthread_create(&thread, &small, many_calls, &limits[i]) == 0 &&
		    pthread_join(thread, NULL) == 0;
	expect("a thread", (uint32_t)made, 1);
	pthread_attr_destroy(&small);
}

int main(void)
{
	test_add();
	test_add_refused();
	test_no_place();
	test_update();
	test_count();
	test_records();
	test_limit();
	test_records_of_small();
	test_turns();
	test_back();
	test_zero_turns();
	test_records_counted();
	test_old_records();
	test_outcome();
	test_involvement();
	test_involvement_by_two_lists();
	test_replay();
	test_side_by_side();
	test_stack();
	if (failures == 0)
		puts("every entry point as expected");
	return failures != 0;
}
