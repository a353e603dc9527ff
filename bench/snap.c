/* The mean time of a snap at L 128 on a card without a snapshot, in nanoseconds: the layout and how many snaps are given. Before
   each the 40 bytes of the old descriptor are put back. */
#define _POSIX_C_SOURCE 199309L
#include "mantreuy.h"

#include <stdio.h>
#include <stdlib.h>
#include <string.h>
#include <time.h>

static uint8_t card[131 * MANTREUY_BLOCK_SIZE];
static const uint8_t fs[MANTREUY_NAME_SIZE] = "fs";
static const uint8_t mon[MANTREUY_NAME_SIZE] = "mon";

int main(int count, char **words)
{
	const long snaps = count > 2 ? atol(words[2]) : 2000000;
	struct timespec first, last;
	uint8_t kept[40];
	uint32_t place, number;

	memset(card, 0xa5, sizeof card);
	number = mantreuy_ream(card, sizeof card, count > 1 ? (uint32_t)atoi(words[1]) : 2, 128, MANTREUY_REVISION_0, fs, sizeof fs, &place);
	memcpy(kept, card, sizeof kept);
	clock_gettime(CLOCK_MONOTONIC, &first);
	for (long i = 0; i < snaps; i++) {
		memcpy(card, kept, sizeof kept);
		number |= mantreuy_snap(card, sizeof card, mon, sizeof mon, &place);
	}
	clock_gettime(CLOCK_MONOTONIC, &last);
	printf("%.1f\n", ((double)(last.tv_sec - first.tv_sec) * 1e9 + (double)(last.tv_nsec - first.tv_nsec)) / (double)snaps);
	return number != MANTREUY_ACCEPTED;
}
