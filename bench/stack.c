/* The stack that each call uses: a thread on a painted stack makes the call, and the lowest byte that changed is found. */
#include "mantreuy.h"

#include <pthread.h>
#include <stdio.h>
#include <stdlib.h>
#include <string.h>

enum { STACK = 1 << 20, BLOCKS = 4096 };

/* Spans: a record of 700 bytes, in three blocks; a long one, in two groups. Both start in block 5. */
enum { RECORD = 700, LONG = 65536, START = MANTREUY_BLOCK_SIZE * 5 + 500 };
enum { END = MANTREUY_BLOCK_SIZE * MANTREUY_MOST_VOLUME };

static uint8_t *stack;
static uint8_t *card;
static uint8_t block[MANTREUY_BLOCK_SIZE];
static uint8_t span[LONG];
static uint8_t records[MANTREUY_MOST_RECORDS * MANTREUY_RECORD_SIZE];
static uint8_t visit[MANTREUY_NAME_SIZE];
static uint32_t place;
static uint32_t number;
static uint8_t *top;
static int which;
/* the length of the card up to its free blocks */
static size_t full;
static const uint8_t fs[MANTREUY_NAME_SIZE] = "fs";
static const uint8_t mon[MANTREUY_NAME_SIZE] = "mon";
static const uint8_t tue[MANTREUY_NAME_SIZE] = "tue";

/* The call itself; `top` is where its frame starts. */
static __attribute__((noinline)) void make(void)
{
	const size_t n = MANTREUY_BLOCK_SIZE * (size_t)BLOCKS;
	top = __builtin_frame_address(0);
	switch (which) {
	case 0: number = mantreuy_ream(card, n, 1, MANTREUY_MOST_VOLUME, MANTREUY_REVISION_0, fs, sizeof fs, &place); break;
	case 1: number = mantreuy_ream(card, n, 2, MANTREUY_MOST_VOLUME, MANTREUY_REVISION_0, fs, sizeof fs, &place); break;
	case 2: number = mantreuy_read(card, n, 0, fs, sizeof fs, 5, block, sizeof block, &place); break;
	case 3: number = mantreuy_read(card, n, 1, mon, sizeof mon, 5, block, sizeof block, &place); break;
	case 4: number = mantreuy_write(card, n, 5, block, sizeof block, &place); break;
	case 5: number = mantreuy_write(card, n, 6, block, sizeof block, &place); break;
	case 6: number = mantreuy_write(card, n, 500, block, sizeof block, &place); break;
	case 7: number = mantreuy_snap(card, n, tue, sizeof tue, &place); break;
	case 8: number = mantreuy_revert(card, n, mon, sizeof mon, &place); break;
	case 9: number = mantreuy_list(card, n, records, sizeof records, &place); break;
	case 10: number = mantreuy_check(card, n, &place); break;
	case 11: number = mantreuy_ream(card, n, 3, MANTREUY_MOST_VOLUME, MANTREUY_REVISION_0, fs, sizeof fs, &place); break;
	case 12: number = mantreuy_read(card, n, 1, tue, sizeof tue, 5, block, sizeof block, &place); break;
	case 13: number = mantreuy_read(card, n, 1, mon, sizeof mon, 5, block, sizeof block, &place); break;
	case 14: number = mantreuy_write(card, n, MANTREUY_MOST_VOLUME, block, sizeof block, &place); break;
	case 15: number = mantreuy_snap(card, n, mon, sizeof mon, &place); break;
	case 16: number = mantreuy_revert(card, n, tue, sizeof tue, &place); break;
	case 17: number = mantreuy_list(card, n, records, MANTREUY_RECORD_SIZE, &place); break;
	case 18: number = mantreuy_check(card, 2 * MANTREUY_BLOCK_SIZE - 1, &place); break;
	case 19: number = mantreuy_check(card, 2 * MANTREUY_BLOCK_SIZE, &place); break;
	case 20: number = mantreuy_check(card, n, &place); break;
	case 21: number = mantreuy_check(card, MANTREUY_BLOCK_SIZE * 2048, &place); break;
	case 22: number = mantreuy_revert(card, n, mon, sizeof mon, &place); break;
	case 23: number = mantreuy_ream(card, n, 2, MANTREUY_MOST_VOLUME, 2, fs, sizeof fs, &place); break;
	case 24: number = mantreuy_visit(card, n, 0, fs, sizeof fs, 5, visit, &place); break;
	case 25: number = mantreuy_visit(card, n, 1, mon, sizeof mon, 5, visit, &place); break;
	case 26: number = mantreuy_visit(card, n, 1, mon, sizeof mon, 5, visit, &place); break;
	case 27: number = mantreuy_read_span(card, n, 0, fs, sizeof fs, START, span, RECORD, &place); break;
	case 28: number = mantreuy_read_span(card, n, 0, fs, sizeof fs, START, span, LONG, &place); break;
	case 29: number = mantreuy_read_span(card, n, 1, mon, sizeof mon, START, span, LONG, &place); break;
	case 30: number = mantreuy_read_span(card, n, 1, mon, sizeof mon, START, span, RECORD, &place); break;
	case 31: number = mantreuy_read_span(card, n, 0, fs, sizeof fs, END, span, 1, &place); break;
	case 32: number = mantreuy_write_span(card, n, START, span, 12, &place); break;
	case 33: number = mantreuy_write_span(card, n, START, span, RECORD, &place); break;
	case 34: number = mantreuy_write_span(card, n, START, span, LONG, &place); break;
	case 35: number = mantreuy_write_span(card, MANTREUY_BLOCK_SIZE * 2048, START, span, LONG, &place); break;
	case 36: number = mantreuy_write_span(card, n, START, span, RECORD, &place); break;
	case 37: number = mantreuy_write_span(card, full, START, span, LONG, &place); break;
	case 38: number = mantreuy_write_span(card, n, END, span, 1, &place); break;
	default: break;
	}
}

static void *work(void *unused)
{
	make();
	return unused;
}

/* Each call, and the number that it must answer. Calls 13, 20, 26, 30 and 36 find a bad entry, 22 a card of revision 1. */
static const struct {
	const char *title;
	uint32_t number;
} calls[] = {
	{"ream, layout 1", 0}, {"ream, layout 2", 0}, {"read, active", 0}, {"read, snapshot", 0}, {"write, overwriting", 0},
	{"write, 1 new block", 0}, {"write, 2 new blocks", 0}, {"snap", 0}, {"revert", 0}, {"list", 0}, {"check", 0},
	{"ream, refused with 2", 2}, {"read, refused with 7", 7}, {"read, refused with 10", 10}, {"write, refused with 8", 8},
	{"snap, refused with 12", 12}, {"revert, refused with 7", 7}, {"list, refused with 14", 14},
	{"check, refused with 1", 1}, {"check, refused with 6", 6}, {"check, refused with 10", 10},
	{"check, 2,048 blocks", 0}, {"revert, revision 1", 0}, {"ream, refused with 17", 17},
	{"visit, active", 0}, {"visit, snapshot", 0}, {"visit, refused with 10", 10},
	{"span read, active", 0}, {"span read, active, 64 KiB", 0}, {"span read, snapshot, 64 KiB", 0},
	{"span read, refused with 10", 10}, {"span read, refused with 16", 16},
	{"span write, overwriting", 0}, {"span write, new blocks", 0}, {"span write, new blocks, 64 KiB", 0},
	{"span write, 2,048 blocks, 64 KiB", 0}, {"span write, refused with 10", 10}, {"span write, refused with 11", 11},
	{"span write, refused with 16", 16},
};

static void prepare(uint32_t layout, uint32_t revision)
{
	uint32_t n = 0;
	const size_t length = MANTREUY_BLOCK_SIZE * (size_t)BLOCKS;
	n |= mantreuy_ream(card, length, layout, MANTREUY_MOST_VOLUME, revision, fs, sizeof fs, &place);
	n |= mantreuy_write(card, length, 5, block, sizeof block, &place);
	n |= mantreuy_snap(card, length, mon, sizeof mon, &place);
	n |= mantreuy_write(card, length, 5, block, sizeof block, &place);
	n |= mantreuy_list(card, length, records, sizeof records, &place);
	if (n != 0)
		abort();
	/* beta of the second record, below 256 here */
	full = MANTREUY_BLOCK_SIZE * (size_t)records[MANTREUY_RECORD_SIZE + 20];
}

int main(void)
{
	card = calloc(BLOCKS, MANTREUY_BLOCK_SIZE);
	if (card == NULL || posix_memalign((void **)&stack, 4096, STACK) != 0)
		return 1;
	printf("| Call | Layout | Stack, bytes |\n|---|---|---|\n");
	for (uint32_t layout = 1; layout <= 2; layout++) {
		for (which = 0; which < (int)(sizeof calls / sizeof calls[0]); which++) {
			size_t low = 0;
			pthread_attr_t attributes;
			pthread_t thread;
			if (which < 2 && (uint32_t)which + 1 != layout)
				continue;
			if (which == 6 && layout == 1)
				continue;
			prepare(layout, which == 22 ? MANTREUY_REVISION_1 : MANTREUY_REVISION_0);
			/* the snapshot's first entry that is set: in its first table block, or in Phi */
			if (which == 13 || which == 20 || which == 26 || which == 30 || which == 36)
				memset(card + (layout == 1 ? MANTREUY_BLOCK_SIZE + 4 * 5 : 64), 0xff, 4);
			memset(stack, 0xa5, STACK);
			pthread_attr_init(&attributes);
			if (pthread_attr_setstack(&attributes, stack, STACK) != 0 || pthread_create(&thread, &attributes, work, NULL) != 0)
				return 1;
			pthread_join(thread, NULL);
			pthread_attr_destroy(&attributes);
			if (number != calls[which].number)
				return 1;
			while (stack[low] == 0xa5)
				low++;
			printf("| %s | %u | %ld |\n", calls[which].title, (unsigned)layout, (long)(top - (stack + low)));
		}
	}
	return 0;
}
