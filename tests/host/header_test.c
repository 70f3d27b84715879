/* The header by itself, as C and as C++: no value changes, and the helpers are the calls they
   stand for. */
#include "release_log.h"

#include <stdio.h>
#include <string.h>

#define SAME(name, value) typedef char name##_is_##value[(name) == (value) ? 1 : -1]

SAME(RELEASE_LOG_OK, 0);
SAME(RELEASE_LOG_UNREADABLE, 1);
SAME(RELEASE_LOG_OUTSIDE, 2);
SAME(RELEASE_LOG_NO_PLACE, 6);
SAME(RELEASE_LOG_ILL_FORMED, 7);
SAME(RELEASE_LOG_NOT_HOLDER, 8);
SAME(RELEASE_LOG_OTHER_LIST, 9);
SAME(RELEASE_LOG_KEPT_ALREADY, 10);
SAME(RELEASE_LOG_HOLDS_ANOTHER, 11);
SAME(RELEASE_LOG_WRONG_TURN, 12);
SAME(RELEASE_LOG_KIND_TAKE, 0);
SAME(RELEASE_LOG_KIND_VOTE, 1);
SAME(RELEASE_LOG_SAY_ABORT, 0);
SAME(RELEASE_LOG_SAY_COMMIT, 1);
SAME(RELEASE_LOG_OUTCOME_OPEN, 0);
SAME(RELEASE_LOG_OUTCOME_COMMIT, 1);
SAME(RELEASE_LOG_OUTCOME_ABORT, 2);
SAME(RELEASE_LOG_INVOLVED_NO, 0);
SAME(RELEASE_LOG_INVOLVED_YES, 1);
SAME(RELEASE_LOG_INVOLVED_UNKNOWN, 2);
SAME(RELEASE_LOG_PROCESSES, 15);
SAME(RELEASE_LOG_TURNS, 255);
SAME(RELEASE_LOG_STORES, 8);
SAME(RELEASE_LOG_TRANSACTIONS, 32);
SAME(RELEASE_LOG_SMALL_STORES, 3);
SAME(RELEASE_LOG_SMALL_TRANSACTIONS, 8);
SAME(RELEASE_LOG_RECORD_SIZE, 16);
SAME(RELEASE_LOG_ROW_SIZE, 10);
SAME(RELEASE_LOG_RECORDS_MOST, 4186);
SAME(RELEASE_LOG_SMALL_RECORDS_MOST, 3879);
SAME(RELEASE_LOG_RECORDS_ROOM, 66976);
SAME(RELEASE_LOG_REPLAY_ROOM, 321);
SAME(RELEASE_LOG_VERSION_MAJOR, 5);
SAME(RELEASE_LOG_VERSION_MINOR, 0);

/* All eight bytes differ. */
#define UPDATE UINT64_C(0x0102030405060708)

/* A commit vote of process 3 for its store, which it lists alone. */
static struct release_log_vote vote_of(uint32_t store, uint32_t tx)
{
	struct release_log_vote vote;
	vote.process = 3;
	vote.by = store;
	vote.store = store;
	vote.tx = tx;
	vote.list = UINT32_C(1) << store;
	vote.say = RELEASE_LOG_SAY_COMMIT;
	vote.turn = 7;
	vote.update = UPDATE;
	return vote;
}

/* In a log of this limit a take of the store and a vote on the transaction, by the helpers and by
   the calls that they stand for; and then some that are refused. */
static int helpers_are_calls(uint32_t stores, uint32_t store, uint32_t tx)
{
	uint8_t ours[2 * RELEASE_LOG_RECORD_SIZE] = {0}, plain[2 * RELEASE_LOG_RECORD_SIZE] = {0};
	const size_t len = sizeof ours;
	uint8_t value = RELEASE_LOG_OUTCOME_OPEN;
	struct release_log_vote vote = vote_of(store, tx);
	const uint32_t list = vote.list;
	int same;
	same = release_log_add_take(stores, ours, len, 0, 3, store, 7) == RELEASE_LOG_OK;
	same &= release_log_add_vote(stores, ours, len, 1, &vote) == RELEASE_LOG_OK;
	same &= release_log_add(stores, plain, len, 0, 0, 3, 0, store, 0, 0, 0, 7, 0) == RELEASE_LOG_OK;
	same &= release_log_add(stores, plain, len, 1, 1, 3, store, store, tx, list, 1, 7, UPDATE) ==
	    RELEASE_LOG_OK;
	same &= memcmp(ours, plain, len) == 0;
	same &= ours[7] == 7 && ours[RELEASE_LOG_RECORD_SIZE + 7] == 7;
	same &= ours[RELEASE_LOG_RECORD_SIZE + 8] == 8 && ours[len - 1] == 1;
	same &= release_log_outcome(stores, ours, len, 2, tx, &value, 1) == RELEASE_LOG_OK;
	same &= value == RELEASE_LOG_OUTCOME_COMMIT;
	same &= release_log_add_take(stores, ours, len, 2, 3, 0, 8) == RELEASE_LOG_HOLDS_ANOTHER;
	same &= release_log_add_take(stores, ours, len, 2, 3, store, 7) == RELEASE_LOG_WRONG_TURN;
	same &= release_log_add_take(stores, ours, len, 2, 3, store, 8) == RELEASE_LOG_NO_PLACE;
	same &= release_log_add_take(stores, ours, len, 2, 4, 0, 0) == RELEASE_LOG_NO_PLACE;
	same &= release_log_add_take(stores, ours, len, 2, 4, stores, 0) == RELEASE_LOG_OUTSIDE;
	same &= release_log_add_vote(stores, ours, len, 2, &vote) == RELEASE_LOG_KEPT_ALREADY;
	vote.tx = 0;
	vote.turn = 8;
	same &= release_log_add_vote(stores, ours, len, 2, &vote) == RELEASE_LOG_WRONG_TURN;
	vote.list |= UINT32_C(1) << stores;
	same &= release_log_add_vote(stores, ours, len, 2, &vote) == RELEASE_LOG_OUTSIDE;
	return same;
}

int main(void)
{
	int same = helpers_are_calls(RELEASE_LOG_STORES, 5, 9);
	same &= helpers_are_calls(RELEASE_LOG_SMALL_STORES, 2, 7);
	puts(same ? "the header's values and helpers as expected" : "a helper is not its call");
	return !same;
}
