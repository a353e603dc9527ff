/*
 * A card in memory: format, write, snapshot, write again, read both, with the visits that they date from, go back, read.
 * Ends with status 1 where an answer is not the expected one.
 *
 *     gcc -O2 -Iinclude examples/card.c crates/mantreuy/out/libmantreuy.a -o card
 */
#include <stdio.h>
#include <stdlib.h>
#include <string.h>
#include "mantreuy.h"

static uint8_t card[16 * MANTREUY_BLOCK_SIZE];
static uint8_t block[MANTREUY_BLOCK_SIZE];
static uint8_t volume_name[MANTREUY_NAME_SIZE], visit[MANTREUY_NAME_SIZE];
static uint32_t place;

static void expect(const char *call, uint32_t number, uint32_t wanted)
{
	if (number != wanted) {
		fprintf(stderr, "%s: answer %u, place %u; expected %u\n", call, (unsigned)number, (unsigned)place, (unsigned)wanted);
		exit(1);
	}
}

static void make_name(const char *text, uint8_t *name)
{
	expect("pad_name", mantreuy_pad_name((const uint8_t *)text, strlen(text), name, MANTREUY_NAME_SIZE), MANTREUY_ACCEPTED);
}

static void write_block(uint32_t l, uint8_t fill)
{
	memset(block, fill, sizeof block);
	expect("write", mantreuy_write(card, sizeof card, l, block, sizeof block, &place), MANTREUY_ACCEPTED);
}

static void read_block(uint32_t snapshot, uint32_t l, uint8_t wanted)
{
	memset(block, 0, sizeof block);
	expect("read", mantreuy_read(card, sizeof card, snapshot, visit, sizeof visit, l, block, sizeof block, &place), MANTREUY_ACCEPTED);
	printf("%s block %u: %u\n", snapshot ? "visit " : "active", (unsigned)l, (unsigned)block[0]);
	if (block[0] != wanted || block[sizeof block - 1] != wanted)
		exit(1);
}

/* the visit that a block dates from */
static void show_visit(uint32_t snapshot, uint32_t l, const char *wanted)
{
	uint8_t from[MANTREUY_NAME_SIZE];

	expect("visit", mantreuy_visit(card, sizeof card, snapshot, visit, sizeof visit, l, from, &place), MANTREUY_ACCEPTED);
	printf("%s block %u dates from %.16s\n", snapshot ? "visit " : "active", (unsigned)l, from[0] ? (const char *)from : "no visit");
	if (strncmp((const char *)from, wanted, sizeof from) != 0)
		exit(1);
}

int main(void)
{
	make_name("fs", volume_name);
	make_name("mon", visit);
	expect("ream", mantreuy_ream(card, sizeof card, 2, 200, MANTREUY_REVISION_0, volume_name, sizeof volume_name, &place), MANTREUY_ACCEPTED);
	write_block(5, 7);
	expect("snap", mantreuy_snap(card, sizeof card, visit, sizeof visit, &place), MANTREUY_ACCEPTED);
	write_block(5, 9);
	read_block(1, 5, 7);
	read_block(0, 5, 9);
	show_visit(1, 5, "mon");
	show_visit(0, 5, "fs");
	show_visit(0, 6, "");
	expect("check", mantreuy_check(card, sizeof card, &place), MANTREUY_ACCEPTED);
	expect("revert", mantreuy_revert(card, sizeof card, visit, sizeof visit, &place), MANTREUY_ACCEPTED);
	read_block(0, 5, 7);
	/* on revision 0 the visit's region is the active one again, and bears its name */
	show_visit(0, 5, "fs");
	expect("read of the visit", mantreuy_read(card, sizeof card, 1, visit, sizeof visit, 5, block, sizeof block, &place), MANTREUY_NO_SNAPSHOT);
	return 0;
}
