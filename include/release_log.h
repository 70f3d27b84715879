/*
 * release_log: a commit log, told from records that the host keeps.
 *
 * The library has no state. The host keeps the accepted entries as records of
 * RELEASE_LOG_RECORD_SIZE bytes in a buffer of its own, oldest first. It gives
 * each call the limit of the log, and lends it the buffer and the count of its
 * records. The library goes through the lent records, so a call takes longer
 * the more there are.
 *
 * A record, and in brackets what a small log has (see Limits):
 *
 *     byte  0      kind      0 take, 1 vote
 *     byte  1      process   1 to 15
 *     byte  2      by        0 to 7 [0 to 2], the store that the voter holds
 *     byte  3      store     0 to 7 [0 to 2]
 *     byte  4      tx        0 to 31 [0 to 7], the transaction
 *     byte  5      list      bit s for store s: 0 to 255 [0 to 7]
 *     byte  6      say       0 abort, 1 commit
 *     byte  7      turn      1 to 255; 0 means 1
 *     bytes 8-15   update    low byte first
 *
 * A take has a kind, a process, a store and a turn. Its other numbers are 0, in
 * a record and in a call.
 *
 * Limits
 *   There are two limits, and the host chooses one for each log that it opens:
 *
 *     stores   the log     its stores   its transactions
 *     8        full        0 to 7       0 to 31
 *     3        small       0 to 2       0 to 7
 *
 *   A list names stores of the log only. Processes and turns are the same in
 *   both. A host may use logs of both limits side by side.
 *   A log keeps its limit. No record says which one it is. So the host keeps
 *   the limit beside the records, and gives it with every call, as the number
 *   of stores: RELEASE_LOG_STORES or RELEASE_LOG_SMALL_STORES. Any other number
 *   is refused, RELEASE_LOG_OUTSIDE, whatever else the call has.
 *   The same records lent with the other limit are another log. Records that
 *   are accepted with 3 are accepted with 8 as well, and every answer and value
 *   within the small limit is the same. So the host of a workshop that grows
 *   gives 8 from then on. The other way round, records that are accepted with
 *   8, one of them outside the small limit, are RELEASE_LOG_OUTSIDE with 3.
 *
 * Turns
 *   A machine that was repaired keeps its process number and comes back in a
 *   later turn. It takes a store again by a take of that turn. A process votes
 *   in the turn in which it took the store that it holds. So once its take of a
 *   later turn is accepted, no vote of its earlier turns is.
 *   A turn of 0 means 1, in a record and in a call. A new entry is stored with
 *   1 then, and a lent record stays as it is. So a host whose machines never
 *   come back gives 0 or 1 throughout.
 *
 * Hosts of version 4
 *   Every call has one argument more, before all others: the limit. A host of
 *   version 4 gives RELEASE_LOG_STORES there. Then records, answers and values
 *   are those of version 4. So nothing is to be converted, and version 4 reads
 *   what this version wrote. No call is forgotten: a compiler refuses one
 *   without the limit, since it has an argument too few.
 *
 * Hosts of version 3
 *   Such a host is changed at its calls as one of version 4 is. One value is
 *   another than in version 3: what release_log_involvement writes of a store
 *   that a kept abort vote lists and the kept commit votes do not. It was
 *   RELEASE_LOG_INVOLVED_YES, and is RELEASE_LOG_INVOLVED_NO. The outcome of
 *   such a transaction is abort. Records and all other values and answers are
 *   those of version 3. So nothing is to be converted, and version 3 reads what
 *   this version wrote.
 *
 * Records of version 2
 *   In version 2 of this header byte 7 was 0, which means turn 1. So a buffer
 *   of version 2 is a buffer of this version, with the same entries. Nothing is
 *   to be converted. The other way round it is refused: version 2 answers
 *   RELEASE_LOG_UNREADABLE where byte 7 is not 0.
 *   A host that gives every entry turn 1 has the same entries accepted as
 *   before. One answer is another: the process holds that store now, or held it
 *   before and holds none now. This was 11, and is RELEASE_LOG_WRONG_TURN.
 *   Such a host is changed at its calls, which have the limit before all else
 *   and a turn before the update. Look for a struct release_log_vote that is
 *   initialized without the names of its members: what was its update would be
 *   its turn.
 *
 * Records of version 1
 *   In version 1 of this header an update had four bytes, and a record twelve.
 *   Such records are not read any more, and a buffer has no mark by which the
 *   library could know them. So a host converts what it keeps, once: behind
 *   each record of 12 bytes come four zero bytes. The update is low byte
 *   first, so the first twelve bytes stay. examples/host/convert.c does this
 *   for the file of the example host.
 *   A host that forgets it hears of it. Two or more such records, lent with
 *   their count, are refused: RELEASE_LOG_OUTSIDE if the buffer ends too early,
 *   else RELEASE_LOG_UNREADABLE. The first record of a log is a take, and its
 *   update would have bytes of the second record.
 *
 * Buffers
 *   Every buffer is the host's before, during and after a call. The library
 *   keeps no pointer. It reads the first `count` records and no byte after
 *   them, and writes only what is named at the function. A buffer of length 0
 *   may be NULL. `records` and `out` must not overlap.
 *   At every answer other than RELEASE_LOG_OK both buffers are as they were.
 *
 * Threads
 *   Calls may run at the same time in any threads, as long as no buffer that
 *   one of them writes (`records` of release_log_add, `out` of a query) is
 *   read or written by another.
 *
 * Stack
 *   A call takes less than 48 KiB of stack and no heap, and makes no system
 *   call.
 *
 * Order of the refusals
 *   The limit is tried first, then the count, then the records, oldest first,
 *   then the call's own numbers, and the place for what is written last. The
 *   first that is wrong decides. Within one entry, a lent one or the new one,
 *   the first that applies in this order is given: RELEASE_LOG_UNREADABLE,
 *   RELEASE_LOG_OUTSIDE; of a vote RELEASE_LOG_ILL_FORMED,
 *   RELEASE_LOG_NOT_HOLDER, RELEASE_LOG_OTHER_LIST, RELEASE_LOG_KEPT_ALREADY,
 *   RELEASE_LOG_WRONG_TURN; of a take RELEASE_LOG_HOLDS_ANOTHER,
 *   RELEASE_LOG_WRONG_TURN.
 */
#ifndef RELEASE_LOG_H
#define RELEASE_LOG_H

#include <stddef.h>
#include <stdint.h>

#ifdef __cplusplus
extern "C" {
#endif

/*
 * The version of this header. MAJOR changes if a host must be changed: a name
 * or a value is another, or a call answers otherwise. MINOR changes if
 * something is added.
 */
#define RELEASE_LOG_VERSION_MAJOR 5
#define RELEASE_LOG_VERSION_MINOR 0

/* The answer of a call: RELEASE_LOG_OK, or the refusal. */
enum {
	/* Accepted, or the value is in `out`. */
	RELEASE_LOG_OK = 0,
	/* A wrong kind or say, or a number or byte that should be 0. */
	RELEASE_LOG_UNREADABLE = 1,
	/* A number outside the log's limits, or a list that names a store
	   outside them; a count beyond the buffer; a wrong limit. */
	RELEASE_LOG_OUTSIDE = 2,
	/* No place: for one more record, or for the value in `out`. */
	RELEASE_LOG_NO_PLACE = 6,
	/* A vote's list lacks its store or by; a commit for another store;
	   an abort with an update other than 0. */
	RELEASE_LOG_ILL_FORMED = 7,
	/* The process does not hold by. */
	RELEASE_LOG_NOT_HOLDER = 8,
	/* A commit vote of the tx is kept, and this is a commit with another
	   list, or an abort whose list is not within that one. */
	RELEASE_LOG_OTHER_LIST = 9,
	/* A vote of the store on the tx is kept already. */
	RELEASE_LOG_KEPT_ALREADY = 10,
	/* The process holds another store now. */
	RELEASE_LOG_HOLDS_ANOTHER = 11,
	/* A take whose turn is below that of the process's last accepted take,
	   of any store; or equal to it, and the process holds this store or
	   held it before. A vote whose turn is not that of by's holder. */
	RELEASE_LOG_WRONG_TURN = 12
};

/* The kind of an entry. */
enum {
	RELEASE_LOG_KIND_TAKE = 0,
	RELEASE_LOG_KIND_VOTE = 1
};

/* What a vote says. */
enum {
	RELEASE_LOG_SAY_ABORT = 0,
	RELEASE_LOG_SAY_COMMIT = 1
};

/* The byte that release_log_outcome writes. Note that an outcome is numbered
   otherwise than what a vote says. */
enum {
	RELEASE_LOG_OUTCOME_OPEN = 0,
	RELEASE_LOG_OUTCOME_COMMIT = 1,
	RELEASE_LOG_OUTCOME_ABORT = 2
};

/* The byte that release_log_involvement writes. NO is written only where a
   commit vote is kept, and UNKNOWN only where none is. */
enum {
	RELEASE_LOG_INVOLVED_NO = 0,
	RELEASE_LOG_INVOLVED_YES = 1,
	RELEASE_LOG_INVOLVED_UNKNOWN = 2
};

/* Limits. Processes are 1 to 15 and turns 1 to 255; stores and transactions
   count from 0. */
#define RELEASE_LOG_PROCESSES 15
#define RELEASE_LOG_TURNS 255

/* The full limit, and the small one. A call has the number of stores. */
#define RELEASE_LOG_STORES 8
#define RELEASE_LOG_TRANSACTIONS 32
#define RELEASE_LOG_SMALL_STORES 3
#define RELEASE_LOG_SMALL_TRANSACTIONS 8

/* The bytes of a record, and of a row that release_log_replay writes. */
#define RELEASE_LOG_RECORD_SIZE 16
#define RELEASE_LOG_ROW_SIZE 10

/*
 * Upper bounds of the records that a log accepts, a full one and a small one.
 * The turns of a process's accepted takes never fall. At most 255 of these
 * takes have a higher turn than the one before, the first one counted. Each
 * other one is of a store that the process never held, so there are at most 7,
 * in a small log 2. That is 262 takes, in a small log 257, for each of 15
 * processes. And each store has one kept vote on each transaction: 8 times 32,
 * in a small log 3 times 8.
 * These bounds are counted by hand and not proved. A host that relies on them
 * is still safe: an entry without place is refused, RELEASE_LOG_NO_PLACE. A
 * host may well have less room: while every turn is 1, a full log accepts at
 * most 376 and a small one 69, each process taking each store once.
 */
#define RELEASE_LOG_RECORDS_MOST 4186
#define RELEASE_LOG_SMALL_RECORDS_MOST 3879

/* The bytes of a record buffer that has room for all of these, with either
   limit. */
#define RELEASE_LOG_RECORDS_ROOM \
	(RELEASE_LOG_RECORDS_MOST * RELEASE_LOG_RECORD_SIZE)

/* The bytes of an `out` that has room for every replay, with either limit: the
   number of rows, and at most a row for each transaction. */
#define RELEASE_LOG_REPLAY_ROOM \
	(1 + RELEASE_LOG_TRANSACTIONS * RELEASE_LOG_ROW_SIZE)

/*
 * A new entry.
 *
 * Takes the limit, the record buffer, its length in bytes and the count of its
 * records, and the entry's numbers. Of a take all but kind, process, store and
 * turn are 0. A turn of 0 means 1, and 1 is stored.
 *
 * Answers, in this order:
 *   RELEASE_LOG_OUTSIDE     stores is neither 8 nor 3
 *   RELEASE_LOG_OUTSIDE     count records are more than records_len bytes
 *   a record's refusal      the first lent record that is refused: 1, 2, 7-12
 *   RELEASE_LOG_UNREADABLE  another kind or say; a take with a number too many
 *   RELEASE_LOG_OUTSIDE     a number outside the log's limits, or a list that
 *                           names a store outside them
 *   RELEASE_LOG_ILL_FORMED, RELEASE_LOG_NOT_HOLDER, RELEASE_LOG_OTHER_LIST,
 *   RELEASE_LOG_KEPT_ALREADY (a vote), RELEASE_LOG_HOLDS_ANOTHER (a take)
 *   RELEASE_LOG_WRONG_TURN
 *   RELEASE_LOG_NO_PLACE    less than a record's bytes after the lent records
 *   RELEASE_LOG_OK          accepted
 *
 * Writes, if accepted, the entry's record after the lent ones, that is at
 * records + count * RELEASE_LOG_RECORD_SIZE, and nothing else. The host then
 * adds one to its count.
 */
uint32_t release_log_add(uint32_t stores, uint8_t *records, size_t records_len,
    size_t count, uint32_t kind, uint32_t process, uint32_t by, uint32_t store,
    uint32_t tx, uint32_t list, uint32_t say, uint32_t turn, uint64_t update);

/*
 * The outcome of a transaction.
 *
 * Takes the limit, the record buffer, its length and count, the transaction,
 * and the buffer for the value with its length.
 *
 * Answers, in this order:
 *   RELEASE_LOG_OUTSIDE     stores is neither 8 nor 3
 *   RELEASE_LOG_OUTSIDE     count records are more than records_len bytes
 *   a record's refusal      the first lent record that is refused: 1, 2, 7-12
 *   RELEASE_LOG_OUTSIDE     a tx above 31, in a small log above 7
 *   RELEASE_LOG_NO_PLACE    out_len is 0
 *   RELEASE_LOG_OK
 *
 * Writes, if OK, out[0]: RELEASE_LOG_OUTCOME_OPEN, _COMMIT or _ABORT.
 */
uint32_t release_log_outcome(uint32_t stores, const uint8_t *records,
    size_t records_len, size_t count, uint32_t tx, uint8_t *out,
    size_t out_len);

/*
 * Whether a store is involved in a transaction. Where a commit vote of the
 * transaction is kept, its list alone says so: yes if the store is in it, else
 * no. (All kept commit votes of a transaction have one list.) Where none is
 * kept, it is yes if the store is in the list of a kept abort vote, else
 * unknown.
 *
 * An abort vote may name stores by guess. So a yes or an unknown may change
 * with a later record, until a commit vote is kept. From then on the answer
 * stays, and a no is final.
 *
 * Takes the limit, the record buffer, its length and count, the transaction
 * and the store, and the buffer for the value with its length.
 *
 * Answers, in this order:
 *   RELEASE_LOG_OUTSIDE     stores is neither 8 nor 3
 *   RELEASE_LOG_OUTSIDE     count records are more than records_len bytes
 *   a record's refusal      the first lent record that is refused: 1, 2, 7-12
 *   RELEASE_LOG_OUTSIDE     a tx above 31, in a small log above 7; or a store
 *                           above 7, in a small log above 2
 *   RELEASE_LOG_NO_PLACE    out_len is 0
 *   RELEASE_LOG_OK
 *
 * Writes, if OK, out[0]: RELEASE_LOG_INVOLVED_NO, _YES or _UNKNOWN.
 */
uint32_t release_log_involvement(uint32_t stores, const uint8_t *records,
    size_t records_len, size_t count, uint32_t tx, uint32_t store,
    uint8_t *out, size_t out_len);

/*
 * The replay of a store: its updates of the committed transactions, by group
 * and then by transaction.
 *
 * Takes the limit, the record buffer, its length and count, the store, and the
 * buffer for the value with its length. A length of RELEASE_LOG_REPLAY_ROOM is
 * enough for every replay.
 *
 * Answers, in this order:
 *   RELEASE_LOG_OUTSIDE     stores is neither 8 nor 3
 *   RELEASE_LOG_OUTSIDE     count records are more than records_len bytes
 *   a record's refusal      the first lent record that is refused: 1, 2, 7-12
 *   RELEASE_LOG_OUTSIDE     a store above 7, in a small log above 2
 *   RELEASE_LOG_NO_PLACE    out_len is below 1 + 10 times the number of rows
 *   RELEASE_LOG_OK
 *
 * Writes, if OK, the number of rows to out[0], and then each row in
 * RELEASE_LOG_ROW_SIZE bytes: group, tx, and the update in eight bytes, low
 * byte first. The rest of `out` stays.
 */
uint32_t release_log_replay(uint32_t stores, const uint8_t *records,
    size_t records_len, size_t count, uint32_t store, uint8_t *out,
    size_t out_len);

/* A new take: release_log_add with a take's numbers. */
static inline uint32_t release_log_add_take(uint32_t stores, uint8_t *records,
    size_t records_len, size_t count, uint32_t process, uint32_t store,
    uint32_t turn)
{
	return release_log_add(stores, records, records_len, count,
	    RELEASE_LOG_KIND_TAKE, process, 0, store, 0, 0, 0, turn, 0);
}

/* The numbers of a vote, by name. An initializer may leave out the turn: it is
   0 then, which means 1. */
struct release_log_vote {
	uint32_t process;
	uint32_t by;
	uint32_t store;
	uint32_t tx;
	uint32_t list;
	uint32_t say;
	uint32_t turn;
	uint64_t update;
};

/* A new vote: release_log_add with these numbers. `vote` is not NULL. */
static inline uint32_t release_log_add_vote(uint32_t stores, uint8_t *records,
    size_t records_len, size_t count, const struct release_log_vote *vote)
{
	return release_log_add(stores, records, records_len, count,
	    RELEASE_LOG_KIND_VOTE, vote->process, vote->by, vote->store,
	    vote->tx, vote->list, vote->say, vote->turn, vote->update);
}

#ifdef __cplusplus
}
#endif

#endif
