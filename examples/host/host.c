/*
 * An example host: it keeps its records in a file, and answers what it is
 * asked on standard input.
 *
 *     host [-s] FILE
 *
 * Each line of the input is a command, and each command is answered. The
 * commands are in the table `commands` below. Between two words is one space.
 * Numbers are written as in step files: decimals without leading zeros, LIST
 * as two lower-case hexadecimal digits, UPDATE as sixteen or eight of them.
 * TURN may be left out: then it is 1. A line that is no such command is
 * answered by an error and changes nothing.
 *
 * With -s the log is a small one: its stores are 0 to 2, its transactions 0 to
 * 7. The file does not say which limit its log has, so -s is given at each
 * start. A file that has a record outside the small limits is left as it is
 * then, and the host says so. A file of a small log may be opened without -s:
 * all its records are accepted, and from then on it may get larger numbers.
 *
 * The file is a row of slots, one for each record: slots.h says what is in
 * them, and how many there can be. When the file is full, an entry that the log
 * would accept is answered 6.
 *
 * An entry is on the disk before it is answered. So whoever kills the host, or
 * pulls the plug, loses no entry that was answered. A slot that was being
 * written at that moment is the last one, and it was not answered: it is
 * dropped at the next start, and the host says so. Anything else that is wrong
 * with the file is damage: the host names the record, leaves the file as it is
 * and stops. One damage cannot be told from that: a file that lost bytes at its
 * end looks as if its last entries had not been written.
 *
 * The file of an earlier host, with records of 12 bytes, is left as it is too.
 * convert.c makes a new file of it.
 */
#define _XOPEN_SOURCE 700
#include "slots.h"

/* The most bytes of a line, without its LF, and the most words of a command. */
#define LINE_MOST 100
#define WORDS_MOST 9

static struct slots kept = {.stores = RELEASE_LOG_STORES};

/* --- The file ----------------------------------------------------------- */

/* The record goes to the disk. */
static void keep(size_t index)
{
	uint8_t slot[SLOT_SIZE];
	make_slot(&form_now, index, record_at(&kept, index), slot);
	write_to_disk(kept.fd, kept.path, slot, SLOT_SIZE, index * SLOT_SIZE);
}

/*
 * The file of an earlier host is known by its first slot. Where that has its
 * checksum, which is never 0, the first slot of this host has zeros: its record
 * is a take, and a take has no update. So neither is taken for the other. An
 * earlier file whose first slot was not written to its end is not known, but
 * holds no entry that was answered.
 */
static void refuse_earlier_form(void)
{
	uint8_t slot[SLOT_SIZE];
	size_t length = read_slot(&kept, &form_now, 0, slot);
	if (length < form_before.slot_size || is_made_so(&form_now, 0, slot, SLOT_SIZE) ||
	    !is_made_so(&form_before, 0, slot, form_before.slot_size))
		return;
	fprintf(stderr, "%s: records of %zu bytes, of an earlier host; convert it with: convert %s NEW\n",
	    kept.path, form_before.record_size, kept.path);
	exit(1);
}

static void drop_last_slot(void)
{
	fprintf(stderr, "%s: record %zu was not written to its end and is dropped\n", kept.path,
	    kept.count + 1);
	if (ftruncate(kept.fd, (off_t)(kept.count * SLOT_SIZE)) < 0)
		fail(kept.path);
	sync_to_disk(kept.fd, kept.path);
}

/* Nothing is written until every slot is known to be good. */
static void load(void)
{
	refuse_earlier_form();
	if (load_slots(&kept, &form_now))
		drop_last_slot();
	/* The last record may be in the file and not yet on the disk: its host was killed just then,
	   or could not sync it. It goes there before anybody hears of it. */
	if (kept.count > 0)
		keep(kept.count - 1);
	sync_folder(kept.path);
}

/* --- Answers ------------------------------------------------------------ */

static void print_answer(uint32_t answer)
{
	printf("answer=%" PRIu32 " %s\n", answer, meaning(answer));
}

/* A new entry was given to the library. If it is accepted, it is kept, and then answered. */
static void answer_entry(uint32_t answer)
{
	if (answer == RELEASE_LOG_OK) {
		keep(kept.count);
		kept.count++;
	}
	print_answer(answer);
}

/* --- Words -------------------------------------------------------------- */

/* A decimal of at most 32 bits. The library says which of these are within their limits. */
static int decimal(const char *word, uint32_t *number)
{
	uint64_t value = 0;
	const char *end = word;
	while (*end >= '0' && *end <= '9' && value <= UINT32_MAX)
		value = 10 * value + (uint64_t)(*end++ - '0');
	int leading_zero = word[0] == '0' && end != word + 1;
	if (end == word || *end != '\0' || value > UINT32_MAX || leading_zero) {
		printf("error: '%s' is no decimal of 0 to %" PRIu32 "\n", word, UINT32_MAX);
		return 0;
	}
	*number = (uint32_t)value;
	return 1;
}

/* A turn that may be left out. */
static int turn_or_1(const char *word, uint32_t *turn)
{
	*turn = 1;
	return word == NULL || decimal(word, turn);
}

static int is_hexadecimal(const char *word, size_t digits)
{
	return strlen(word) == digits && strspn(word, "0123456789abcdef") == digits;
}

static uint64_t hexadecimal(const char *word)
{
	uint64_t value = 0;
	for (; *word != '\0'; word++)
		value = 16 * value + (uint64_t)(*word <= '9' ? *word - '0' : *word - 'a' + 10);
	return value;
}

static int list(const char *word, uint32_t *number)
{
	if (!is_hexadecimal(word, 2)) {
		printf("error: '%s' is not 2 lower-case hexadecimal digits\n", word);
		return 0;
	}
	*number = (uint32_t)hexadecimal(word);
	return 1;
}

static int update(const char *word, uint64_t *number)
{
	if (!is_hexadecimal(word, 16) && !is_hexadecimal(word, 8)) {
		printf("error: '%s' is not 16 or 8 lower-case hexadecimal digits\n", word);
		return 0;
	}
	*number = hexadecimal(word);
	return 1;
}

static int commit_or_abort(const char *word, uint32_t *say)
{
	int commit = strcmp(word, "commit") == 0;
	if (!commit && strcmp(word, "abort") != 0) {
		printf("error: '%s' is neither commit nor abort\n", word);
		return 0;
	}
	*say = commit ? RELEASE_LOG_SAY_COMMIT : RELEASE_LOG_SAY_ABORT;
	return 1;
}

/* --- Commands: each gets its words, words[0] its name, and NULL after them - */

static void take(char *const *words)
{
	uint32_t process, store, turn;
	if (!decimal(words[1], &process) || !decimal(words[2], &store) || !turn_or_1(words[3], &turn))
		return;
	answer_entry(release_log_add_take(kept.stores, kept.records, sizeof kept.records, kept.count,
	    process, store, turn));
}

static void vote(char *const *words)
{
	struct release_log_vote v;
	if (!decimal(words[1], &v.process) || !decimal(words[2], &v.by) || !decimal(words[3], &v.store) ||
	    !decimal(words[4], &v.tx) || !list(words[5], &v.list) ||
	    !commit_or_abort(words[6], &v.say) || !update(words[7], &v.update) ||
	    !turn_or_1(words[8], &v.turn))
		return;
	answer_entry(
	    release_log_add_vote(kept.stores, kept.records, sizeof kept.records, kept.count, &v));
}

static void outcome(char *const *words)
{
	static const char *const names[] = {
	    [RELEASE_LOG_OUTCOME_OPEN] = "open",
	    [RELEASE_LOG_OUTCOME_COMMIT] = "commit",
	    [RELEASE_LOG_OUTCOME_ABORT] = "abort",
	};
	uint32_t tx, answer;
	uint8_t value;
	if (!decimal(words[1], &tx))
		return;
	answer = release_log_outcome(kept.stores, kept.records, sizeof kept.records, kept.count, tx,
	    &value, 1);
	if (answer == RELEASE_LOG_OK)
		printf("tx=%" PRIu32 " outcome=%s\n", tx, names[value]);
	else
		print_answer(answer);
}

static void involvement(char *const *words)
{
	static const char *const names[] = {
	    [RELEASE_LOG_INVOLVED_NO] = "no",
	    [RELEASE_LOG_INVOLVED_YES] = "yes",
	    [RELEASE_LOG_INVOLVED_UNKNOWN] = "unknown",
	};
	uint32_t tx, store, answer;
	uint8_t value;
	if (!decimal(words[1], &tx) || !decimal(words[2], &store))
		return;
	answer = release_log_involvement(kept.stores, kept.records, sizeof kept.records, kept.count, tx,
	    store, &value, 1);
	if (answer == RELEASE_LOG_OK)
		printf("tx=%" PRIu32 " store=%" PRIu32 " involved=%s\n", tx, store, names[value]);
	else
		print_answer(answer);
}

/* The update of a row: all its bytes from the third on. */
static uint64_t row_update(const uint8_t *row)
{
	uint64_t number = 0;
	for (size_t i = RELEASE_LOG_ROW_SIZE; i > 2; i--)
		number = number << 8 | row[i - 1];
	return number;
}

static void replay(char *const *words)
{
	uint8_t out[RELEASE_LOG_REPLAY_ROOM];
	uint32_t store, answer;
	if (!decimal(words[1], &store))
		return;
	answer = release_log_replay(kept.stores, kept.records, sizeof kept.records, kept.count, store,
	    out, sizeof out);
	if (answer != RELEASE_LOG_OK) {
		print_answer(answer);
		return;
	}
	for (size_t i = 0; i < out[0]; i++) {
		const uint8_t *row = out + 1 + i * RELEASE_LOG_ROW_SIZE;
		printf("store=%" PRIu32 " group=%u tx=%u upd=%016" PRIx64 "\n", store, row[0], row[1],
		    row_update(row));
	}
	printf("rows=%u\n", out[0]);
}

static const struct {
	const char *name;
	const char *form;
	size_t words_least;
	size_t words_most;
	void (*run)(char *const *words);
} commands[] = {
	{"take", "take PROCESS STORE [TURN]", 3, 4, take},
	{"vote", "vote PROCESS BY STORE TX LIST commit|abort UPDATE [TURN]", 8, 9, vote},
	{"outcome", "outcome TX", 2, 2, outcome},
	{"involvement", "involvement TX STORE", 3, 3, involvement},
	{"replay", "replay STORE", 2, 2, replay},
};

#define COMMANDS (sizeof commands / sizeof *commands)

/* --- Lines -------------------------------------------------------------- */

/*
 * Reads a line to its end, and says how long it is without its LF; 0 if there
 * is no line left. Only its first LINE_MOST bytes are put into `line`.
 */
static int read_line(char line[LINE_MOST + 1], size_t *length)
{
	int byte = getchar();
	if (byte == EOF)
		return 0;
	memset(line, 0, LINE_MOST + 1);
	for (*length = 0; byte != EOF && byte != '\n'; byte = getchar()) {
		if (*length < LINE_MOST)
			line[*length] = (char)byte;
		++*length;
	}
	return 1;
}

/* The words of a line, up to one more than any command has, and NULL after them: there is one space
   between two. */
static size_t split(char *line, char *words[WORDS_MOST + 2])
{
	size_t n = 0;
	while (line != NULL && n <= WORDS_MOST) {
		words[n++] = line;
		line = strchr(line, ' ');
		if (line != NULL)
			*line++ = '\0';
	}
	words[n] = NULL;
	return n;
}

static void print_usage(void)
{
	printf("error: unknown command; usage: ");
	for (size_t i = 0; i < COMMANDS; i++)
		printf("%s%s", i == 0 ? "" : ", ", commands[i].form);
	printf("\n");
}

static void obey(char *line, size_t length)
{
	char *words[WORDS_MOST + 2];
	size_t i = 0, n;
	if (length > LINE_MOST) {
		printf("error: a line of more than %d bytes\n", LINE_MOST);
		return;
	}
	if (strlen(line) != length) {
		printf("error: a line with a zero byte\n");
		return;
	}
	n = split(line, words);
	while (i < COMMANDS && strcmp(words[0], commands[i].name) != 0)
		i++;
	if (i == COMMANDS)
		print_usage();
	else if (n < commands[i].words_least || n > commands[i].words_most)
		printf("error: usage: %s\n", commands[i].form);
	else
		commands[i].run(words);
}

int main(int argc, char **argv)
{
	char line[LINE_MOST + 1];
	size_t length;
	int option;
	while ((option = getopt(argc, argv, "s")) == 's')
		kept.stores = RELEASE_LOG_SMALL_STORES;
	if (option != -1 || optind != argc - 1) {
		fprintf(stderr, "usage: %s [-s] FILE\n", argv[0]);
		return 2;
	}
	/* One host at a time, since each has the records in memory. */
	open_slots(&kept, argv[optind], O_RDWR | O_CREAT, LOCK_EX);
	load();
	while (read_line(line, &length)) {
		obey(line, length);
		if (fflush(stdout) != 0 || ferror(stdout))
			fail("standard output");
	}
	if (ferror(stdin))
		fail("standard input");
	return 0;
}
