/*
 * Session records of 700 bytes: session k stands at byte 700 * k of the volume, in two or three blocks. The clinic's visit has three
 * of them, the machine at home adds two, and two more that it tries are refused. The desk reads the records as of the visit, rolls
 * the card back to it and writes one anew. Ends with status 1 where a call is refused that must not be, or a record is not whole.
 *
 *     gcc -O2 -Iinclude examples/records.c crates/mantreuy/out/libmantreuy.a -o records
 */
#include <stdio.h>
#include <stdlib.h>
#include <string.h>
#include "mantreuy.h"

enum { RECORD = 700 };

static uint8_t card[13 * MANTREUY_BLOCK_SIZE], record[RECORD], name[MANTREUY_NAME_SIZE];
static uint32_t place;

/* a refusal that the program cannot go on with: 6 and 10 have the block at fault as their place */
static void must(const char *call, uint32_t number)
{
	if (number != MANTREUY_ACCEPTED) {
		fprintf(stderr, "%s: answer %u, place %u\n", call, (unsigned)number, (unsigned)place);
		exit(1);
	}
}

static const uint8_t *named(const char *text)
{
	must("pad_name", mantreuy_pad_name((const uint8_t *)text, strlen(text), name, sizeof name));
	return name;
}

/* writes session k, every byte of it `fill`; where it is refused no byte of the card has changed */
static void write_session(uint32_t k, uint8_t fill)
{
	uint32_t number;

	memset(record, fill, sizeof record);
	number = mantreuy_write_span(card, sizeof card, (uint64_t)RECORD * k, record, sizeof record, &place);
	if (number == MANTREUY_PAST_END)
		printf("session %u: past the volume's end\n", (unsigned)k);
	else if (number == MANTREUY_NO_ROOM)
		printf("session %u: no room on the card\n", (unsigned)k);
	else
		must("write_span", number);
}

/* prints a byte of each session of the visit, or of the active volume where visit is NULL; 0 is a session that was not written */
static void show_sessions(const char *visit)
{
	uint32_t k;

	printf("%s:", visit ? visit : "active");
	for (k = 0;; k++) {
		uint32_t number = mantreuy_read_span(card, sizeof card, visit != NULL, named(visit ? visit : "none"), sizeof name,
		                                     (uint64_t)RECORD * k, record, sizeof record, &place);

		if (number == MANTREUY_PAST_END)
			break;
		must("read_span", number);
		/* all bytes are the same */
		if (memcmp(record, record + 1, sizeof record - 1) != 0)
			exit(1);
		printf(" %u", (unsigned)record[0]);
	}
	printf("\n");
}

int main(void)
{
	/* the clinic: eight blocks are 4,096 bytes, which is five records and a part of one */
	must("ream", mantreuy_ream(card, sizeof card, 2, 8, MANTREUY_REVISION_1, named("home-17"), sizeof name, &place));
	write_session(0, 1);
	write_session(1, 2);
	write_session(2, 3);
	must("snap", mantreuy_snap(card, sizeof card, named("visit-tue"), sizeof name, &place));
	/* at home; a record more than the volume has, and a change that needs two blocks where one is free */
	write_session(3, 4);
	write_session(4, 5);
	write_session(5, 6);
	write_session(0, 9);
	/* the desk */
	show_sessions(NULL);
	show_sessions("visit-tue");
	must("revert", mantreuy_revert(card, sizeof card, named("visit-tue"), sizeof name, &place));
	printf("rolled back\n");
	show_sessions(NULL);
	write_session(0, 9);
	show_sessions(NULL);
	show_sessions("visit-tue");
	return 0;
}
