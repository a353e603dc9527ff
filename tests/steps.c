/* One snap, looked at after each machine instruction: the pass that makes its new descriptor, stopped anywhere (document 02, W3).
   The processor stops after each instruction (the trap flag), and a handler compares the whole card with the cards before and
   after the snap, which this program makes by itself. Linux on x86-64, as the library.
   Before the snap every byte of the blocks that it takes is unlike the one that it leaves there. A byte of the new descriptor's
   block that has been stored is made unlike it again, so that a second store of it shows; a snap does not read that block. */
#define _GNU_SOURCE
#include "mantreuy.h"

#include <signal.h>
#include <stdio.h>
#include <string.h>

enum { BLOCK = MANTREUY_BLOCK_SIZE, BLOCKS = 400, MOST_BYTES = BLOCKS * BLOCK };

static volatile uint8_t card[MOST_BYTES];
static uint8_t before[MOST_BYTES], after[MOST_BYTES];
static uint8_t records[MANTREUY_MOST_RECORDS * MANTREUY_RECORD_SIZE];
/* the bytes of the card: where the old descriptor, the new one and what follows the new region begin, and how many there are */
static size_t old, new, end, size;
/* the bytes of the new descriptor's block that are stored, the instructions that stored some, and all instructions */
static volatile size_t stored, stops, instructions;
static const char *volatile wrong;

static uint32_t number_at(const uint8_t *bytes)
{
	return bytes[0] + 256u * bytes[1] + 65536u * bytes[2] + 16777216u * bytes[3];
}

static void put_number(uint8_t *bytes, uint32_t v)
{
	for (int i = 0; i < 4; i++, v /= 256)
		bytes[i] = (uint8_t)(v % 256);
}

static int same(const uint8_t *other, size_t from, size_t to)
{
	return memcmp((const uint8_t *)card + from, other + from, to - from) == 0;
}

/* After one instruction: it has stored the next bytes of the block, or none. */
static void look(int signal)
{
	size_t k = stored;

	(void)signal;
	instructions++;
	if (wrong)
		return;
	for (; k < BLOCK && card[new + k] == after[new + k]; k++)
		card[new + k] = before[new + k];
	if (!same(before, new, new + BLOCK))
		wrong = "a byte of the new descriptor was stored a second time, before an earlier one, or not in its last form";
	else if (!same(before, 0, old) || !same(before, old + BLOCK, new) || !same(before, end, size))
		wrong = "a byte changed that a snap does not change";
	else if (k < BLOCK && !same(before, old, old + BLOCK))
		wrong = "the old descriptor changed before the new one stood";
	else if (k > 0 && !same(after, new + BLOCK, end))
		wrong = "the new descriptor was begun before the tables stood";
	stops += k > stored;
	stored = k;
}

/* A card of some visits, and the card after one more, by document 01: tables copied, the new descriptor a copy with its own
   alpha and beta, the old one with name and next. With two visits the card is full then. */
static int prepare(uint32_t layout, uint32_t volume, int visits, const uint8_t *name)
{
	uint8_t *const lent = (uint8_t *)card;
	uint8_t visit[MANTREUY_NAME_SIZE] = "v-a", block[BLOCK];
	uint32_t place, number, alpha, beta, cost = layout == 1 ? 1 + (volume + 127) / 128 : 1;

	memset(lent, 0x5a, MOST_BYTES);
	size = BLOCK * (size_t)((visits + 2) * (cost + 2) + 1);
	if (size > MOST_BYTES)
		return 0;
	number = mantreuy_ream(lent, size, layout, volume, MANTREUY_REVISION_0, (const uint8_t *)"home-17\0\0\0\0\0\0\0\0", MANTREUY_NAME_SIZE, &place);
	for (int i = 0; i <= visits; i++) {
		memset(block, 'a' + i, sizeof block);
		number |= mantreuy_write(lent, size, (uint32_t)i % volume, block, sizeof block, &place);
		visit[2] = (uint8_t)('a' + i);
		if (i < visits)
			number |= mantreuy_snap(lent, size, visit, sizeof visit, &place);
	}
	number |= mantreuy_list(lent, size, records, sizeof records, &place);
	if (number != MANTREUY_ACCEPTED)
		return 0;
	alpha = number_at(records + visits * MANTREUY_RECORD_SIZE + 16);
	beta = number_at(records + visits * MANTREUY_RECORD_SIZE + 20);
	old = BLOCK * (size_t)alpha;
	new = BLOCK * (size_t)beta;
	end = new + BLOCK * (size_t)cost;
	if (visits == 2)
		size = end;

	memcpy(after, lent, MOST_BYTES);
	memcpy(after + new, after + old, end - new);
	put_number(after + new + 12, beta);
	put_number(after + new + 16, beta + cost);
	put_number(after + old + 20, beta);
	memcpy(after + old + 24, name, MANTREUY_NAME_SIZE);
	for (size_t at = new; at < end; at++)
		lent[at] = (uint8_t)~after[at];
	memcpy(before, lent, MOST_BYTES);
	return 1;
}

static int try(uint32_t layout, uint32_t volume, int visits)
{
	uint8_t name[MANTREUY_NAME_SIZE];
	uint32_t place = 1, number;

	memcpy(name, "visit-0123456789", sizeof name);
	stored = stops = instructions = 0;
	wrong = NULL;
	if (!prepare(layout, volume, visits, name)) {
		wrong = "the card was not made";
		number = 1;
	} else {
		__asm__ volatile("pushfq\n\torq $0x100, (%%rsp)\n\tpopfq" ::: "cc", "memory");
		number = mantreuy_snap((uint8_t *)card, size, name, sizeof name, &place);
		__asm__ volatile("pushfq\n\tandq $~0x100, (%%rsp)\n\tpopfq" ::: "cc", "memory");
		if (!wrong && (number != MANTREUY_ACCEPTED || place != 0 || stored != BLOCK || !same(after, 0, new) || !same(after, new + BLOCK, MOST_BYTES)))
			wrong = "the card after the snap is another";
		if (!wrong && stops < 4)
			wrong = "too few stops within the pass";
	}
	printf("steps: layout %u, L %u, %d snapshots: %zu instructions, %zu stops within the pass%s%s\n", (unsigned)layout, (unsigned)volume,
	       visits, instructions, stops, wrong ? ": " : "", wrong ? wrong : "");
	return wrong == NULL;
}

int main(void)
{
	static const uint32_t volumes[] = {1, 128, 129, 300, MANTREUY_MOST_VOLUME};
	struct sigaction action;
	int passed = 0, failed = 0;

	memset(&action, 0, sizeof action);
	action.sa_handler = look;
	if (sigaction(SIGTRAP, &action, NULL) != 0)
		return 2;
	for (uint32_t layout = 1; layout <= 2; layout++)
		for (size_t v = 0; v < sizeof volumes / sizeof volumes[0]; v++)
			for (int visits = 0; visits <= 2; visits++) {
				if (layout == 1 && volumes[v] == MANTREUY_MOST_VOLUME && visits > 1)
					continue;
				if (try(layout, volumes[v], visits))
					passed++;
				else
					failed++;
			}
	printf("%d passed, %d failed\n", passed, failed);
	return failed > 0;
}
