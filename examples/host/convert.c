/*
 * Converts the file of an earlier example host, with records of 12 bytes, to
 * one that host.c reads.
 *
 *     convert OLD NEW
 *
 * Each record gets four zero bytes more. Its update is low byte first, so it
 * stays the same number. Its byte 7 stays 0, which means turn 1. How many
 * records there are is printed.
 *
 * OLD is only read, and no host can use it meanwhile. It is looked at as a host
 * does at its start. A last record that was not written to its end was not
 * answered: it is left out, and named. Any other damage is named, and ends the
 * program. A file that host.c wrote is damaged in this sense: its first record
 * is a take, which has no update, and so there are zeros where the checksum of
 * an earlier host would be.
 *
 * NEW must not exist. It is there, whole and on the disk, if the exit code is
 * 0. If it is 1, there is no NEW, or the one that was there before. A program
 * that is killed may leave a file whose name is NEW and seven characters more.
 */
#define _XOPEN_SOURCE 700
#include "slots.h"

/* An earlier host had the full limit. */
static struct slots old = {.stores = RELEASE_LOG_STORES};

/* What is removed at the end: the file as it was written, under another name, and NEW unless all
   went well. */
static char *part;
static const char *unfinished;

static void remove_what_is_left(void)
{
	if (part != NULL)
		unlink(part);
	if (unfinished != NULL)
		unlink(unfinished);
}

/* A file of its own in the folder of NEW, with the permissions of OLD. */
static int open_part(const char *path)
{
	static const char ending[] = ".XXXXXX";
	struct stat about;
	size_t length = strlen(path);
	char *name = malloc(length + sizeof ending);
	if (name == NULL || fstat(old.fd, &about) < 0)
		fail(path);
	memcpy(name, path, length);
	memcpy(name + length, ending, sizeof ending);
	int fd = mkstemp(name);
	if (fd < 0)
		fail(path);
	part = name;
	if (fchmod(fd, about.st_mode & 0777) < 0)
		fail(path);
	return fd;
}

static void write_new(const char *path)
{
	static uint8_t bytes[SLOTS_MOST * SLOT_SIZE];
	for (size_t i = 0; i < old.count; i++)
		make_slot(&form_now, i, record_at(&old, i), bytes + i * SLOT_SIZE);
	write_to_disk(open_part(path), path, bytes, old.count * SLOT_SIZE, 0);
	/* Unlike a rename, this never replaces a file. */
	if (link(part, path) < 0)
		fail(path);
	unfinished = path;
	if (unlink(part) < 0)
		fail(part);
	free(part);
	part = NULL;
	sync_folder(path);
}

int main(int argc, char **argv)
{
	if (argc != 3) {
		fprintf(stderr, "usage: %s OLD NEW\n", argv[0]);
		return 2;
	}
	if (atexit(remove_what_is_left) != 0)
		fail(argv[0]);
	open_slots(&old, argv[1], O_RDONLY, LOCK_SH);
	if (load_slots(&old, &form_before))
		fprintf(stderr, "%s: record %zu was not written to its end and is left out\n", old.path,
		    old.count + 1);
	write_new(argv[2]);
	printf("records converted: %zu\n", old.count);
	if (fflush(stdout) != 0)
		fail("standard output");
	unfinished = NULL;
	return 0;
}
