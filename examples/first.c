#include <stdio.h>
#include <string.h>
#include "mantreuy.h"

static uint8_t card[16 * MANTREUY_BLOCK_SIZE], block[MANTREUY_BLOCK_SIZE], name[MANTREUY_NAME_SIZE];

int main(void)
{
    uint32_t place = 0, number;

    number = mantreuy_pad_name((const uint8_t *)"fs", 2, name, sizeof name);
    if (number == MANTREUY_ACCEPTED)
        number = mantreuy_ream(card, sizeof card, 2, 200, MANTREUY_REVISION_0, name, sizeof name, &place);
    memset(block, 7, sizeof block);
    if (number == MANTREUY_ACCEPTED)
        number = mantreuy_write(card, sizeof card, 5, block, sizeof block, &place);
    printf("answer=%u place=%u\n", (unsigned)number, (unsigned)place);
    return number != MANTREUY_ACCEPTED;
}
