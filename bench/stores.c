/* One snap on a card of 16 blocks whose free blocks hold other bytes, between two stores to `mark`, for a trace of its stores.
   It prints the addresses of the card and of `mark`, and the byte of the card at which the new descriptor's block starts. */
#include "mantreuy.h"

#include <stdio.h>
#include <stdlib.h>
#include <string.h>

static uint8_t card[16 * MANTREUY_BLOCK_SIZE];
static uint8_t records[2 * MANTREUY_RECORD_SIZE];
static volatile uint32_t mark;
static const uint8_t fs[MANTREUY_NAME_SIZE] = "fs";
static const uint8_t mon[MANTREUY_NAME_SIZE] = "mon";

int main(int count, char **words)
{
	uint32_t place, number;
	unsigned long beta;

	memset(card, 0xa5, sizeof card);
	number = mantreuy_ream(card, sizeof card, count > 1 ? (uint32_t)atoi(words[1]) : 2, 200, MANTREUY_REVISION_0, fs, sizeof fs, &place);
	mark = 1;
	number |= mantreuy_snap(card, sizeof card, mon, sizeof mon, &place);
	mark = 2;
	number |= mantreuy_list(card, sizeof card, records, sizeof records, &place);
	/* alpha of the second record, lowest byte first: below 256 here */
	beta = records[MANTREUY_RECORD_SIZE + 16];
	printf("%lx %lx %lu\n", (unsigned long)(size_t)card, (unsigned long)(size_t)&mark, MANTREUY_BLOCK_SIZE * beta);
	return number != MANTREUY_ACCEPTED;
}
