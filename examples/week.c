/*
 * The week of examples/week.sheet on a card of revision 1, with two rollbacks to one visit, and with the visits that pages date
 * from. On Monday the depot formats the card, on Tuesday the clinic writes the prescription, and the machine at home adds its
 * sessions. On Friday the desk rolls the card back to Tuesday's visit, tries another setting, and rolls back to the same visit again.
 * Ends with status 1 where an answer is not the expected one.
 *
 *     gcc -O2 -Iinclude examples/week.c crates/mantreuy/out/libmantreuy.a -o week
 */
#include <stdio.h>
#include <stdlib.h>
#include <string.h>
#include "mantreuy.h"

static uint8_t card[48 * MANTREUY_BLOCK_SIZE], block[MANTREUY_BLOCK_SIZE], name[MANTREUY_NAME_SIZE];
static uint8_t records[MANTREUY_MOST_RECORDS * MANTREUY_RECORD_SIZE];
static uint32_t place;

static void expect(const char *call, uint32_t number, uint32_t wanted)
{
	if (number != wanted) {
		fprintf(stderr, "%s: answer %u, place %u; expected %u\n", call, (unsigned)number, (unsigned)place, (unsigned)wanted);
		exit(1);
	}
}

static const uint8_t *named(const char *text)
{
	expect("pad_name", mantreuy_pad_name((const uint8_t *)text, strlen(text), name, sizeof name), MANTREUY_ACCEPTED);
	return name;
}

static void write_block(uint32_t l, uint8_t fill)
{
	memset(block, fill, sizeof block);
	expect("write", mantreuy_write(card, sizeof card, l, block, sizeof block, &place), MANTREUY_ACCEPTED);
}

/* prints the first byte of a block of the visit, or of the active volume where visit is NULL */
static void show_block(const char *visit, uint32_t l)
{
	uint32_t number = mantreuy_read(card, sizeof card, visit != NULL, named(visit ? visit : "none"), sizeof name, l,
	                                block, sizeof block, &place);

	expect("read", number, MANTREUY_ACCEPTED);
	printf("  %s block %u: %u\n", visit ? visit : "active", (unsigned)l, (unsigned)block[0]);
}

/* prints the visit that a block of the visit, or of the active volume where visit is NULL, dates from */
static void show_visit(const char *visit, uint32_t l)
{
	uint8_t from[MANTREUY_NAME_SIZE];
	uint32_t number = mantreuy_visit(card, sizeof card, visit != NULL, named(visit ? visit : "none"), sizeof name, l,
	                                 from, &place);

	expect("visit", number, MANTREUY_ACCEPTED);
	printf("  %s block %u dates from %.16s\n", visit ? visit : "active", (unsigned)l, from[0] ? (const char *)from : "no visit");
}

static void take_snapshot(const char *visit, uint32_t wanted)
{
	expect("snap", mantreuy_snap(card, sizeof card, named(visit), sizeof name, &place), wanted);
}

static void roll_back(const char *visit, uint32_t wanted)
{
	expect("revert", mantreuy_revert(card, sizeof card, named(visit), sizeof name, &place), wanted);
}

static uint32_t number_at(const uint8_t *at)
{
	return at[0] | (uint32_t)at[1] << 8 | (uint32_t)at[2] << 16 | (uint32_t)at[3] << 24;
}

static void show_list(const char *day)
{
	const uint8_t *record = records;

	expect("check", mantreuy_check(card, sizeof card, &place), MANTREUY_ACCEPTED);
	expect("list", mantreuy_list(card, sizeof card, records, sizeof records, &place), MANTREUY_ACCEPTED);
	printf("%s\n", day);
	for (;; record += MANTREUY_RECORD_SIZE) {
		printf("  %.16s: blocks %u to %u\n", (const char *)record, (unsigned)number_at(record + 16), (unsigned)number_at(record + 20) - 1);
		if (number_at(record + 24) == 0)
			return;
	}
}

int main(void)
{
	/* Monday, the depot */
	expect("ream", mantreuy_ream(card, sizeof card, 2, 512, MANTREUY_REVISION_1, named("home-17"), sizeof name, &place), MANTREUY_ACCEPTED);
	write_block(0, 40);
	take_snapshot("depot", MANTREUY_ACCEPTED);
	/* Tuesday, the clinic */
	write_block(1, 71);
	write_block(2, 72);
	take_snapshot("visit-tue", MANTREUY_ACCEPTED);
	/* Wednesday and Thursday, at home */
	write_block(256, 101);
	write_block(257, 102);
	take_snapshot("home-wed", MANTREUY_ACCEPTED);
	write_block(258, 103);
	write_block(1, 79);
	show_list("Thursday");
	/* which visit's region has the current version of a page */
	show_visit(NULL, 0);
	show_visit(NULL, 1);
	show_visit(NULL, 2);
	show_visit(NULL, 256);
	show_visit(NULL, 300);
	show_visit("home-wed", 1);
	/* Friday, the desk: back to the visit */
	roll_back("visit-tue", MANTREUY_ACCEPTED);
	show_list("Friday");
	show_block(NULL, 1);
	show_visit(NULL, 1);
	show_block(NULL, 256);
	show_visit(NULL, 256);
	/* another setting, which does not serve either: back to the same visit */
	write_block(1, 88);
	show_block(NULL, 1);
	show_visit(NULL, 1);
	show_block("visit-tue", 1);
	roll_back("visit-tue", MANTREUY_ACCEPTED);
	show_list("Friday, again");
	show_block(NULL, 1);
	/* the visit is still there under its name, the later one is not */
	take_snapshot("visit-tue", MANTREUY_NAME_IN_USE);
	roll_back("home-wed", MANTREUY_NO_SNAPSHOT);
	/* Saturday, the bench */
	printf("Saturday\n");
	show_block("depot", 0);
	show_block("depot", 1);
	show_block("visit-tue", 1);
	return 0;
}
