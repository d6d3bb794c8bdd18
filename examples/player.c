/* How firmware keeps pages: it writes two, lets cells wear, reads what is left and mends it. See README.md for the commands. */
#include "pizqarod.h"
#include <inttypes.h>
#include <stdio.h>
#include <string.h>

enum { PAGES = 2, PAGE_BYTES = 16, PAYLOAD = 5 };

/* Eight columns of eight cells: 64 cells and 5 bytes a page, with reach 8. */
static const uint8_t recipe[] = {0x13, 0x00, 0x08, 0x02, 0x00, 0x01, 0x01, 0x00, 0x05, 0x01, 0x00, 0x07, 0x00, 0x00, 0x08};

static uint8_t memory[PAGES * PAGE_BYTES];

static void show(uint32_t page)
{
    char text[PAYLOAD + 1] = {0};
    int32_t harm = pizqarod_read(recipe, sizeof recipe, PAGES, memory, sizeof memory, page, (uint8_t *)text, PAYLOAD);
    if (harm < 0)
        printf("page %" PRIu32 ": refused %" PRId32 "\n", page, -harm);
    else
        printf("page %" PRIu32 ": %s, harm %" PRId32 "\n", page, text, harm);
}

int main(void)
{
    static const char *const texts[PAGES] = {"hello", "again"};
    for (uint32_t page = 0; page < PAGES; page++)
        pizqarod_write(recipe, sizeof recipe, PAGES, memory, sizeof memory, page, (const uint8_t *)texts[page], PAYLOAD);

    memory[0] ^= 0x81;              /* two cells of page 0 turn over */
    memory[PAGE_BYTES / 2] |= 0x08; /* and one goes blank */
    show(0);

    int32_t harm = pizqarod_patrol(recipe, sizeof recipe, PAGES, memory, sizeof memory, 0);
    printf("page 0: mended, harm was %" PRId32 "\n", harm);
    show(0);

    memset(memory + PAGE_BYTES + PAGE_BYTES / 2, 0xff, PAGE_BYTES / 2); /* all cells of page 1 go blank */
    show(1);
    return 0;
}
