/* The firmware's calls as C links them: every refusal in its order, and lives of pages that wear. Ends with 1 where an answer is wrong. */
#include "pizqarod.h"
#include <stdbool.h>
#include <stdio.h>
#include <stdlib.h>
#include <string.h>

static int wrong;

static void expect(const char *what, int32_t answer, int32_t due)
{
    if (answer != due) {
        printf("%s: %d, and not %d\n", what, (int)answer, (int)due);
        wrong = 1;
    }
}

static void expect_same(const char *what, const uint8_t *a, const uint8_t *b, size_t n)
{
    if (memcmp(a, b, n) != 0) {
        printf("%s: other bytes than are due\n", what);
        wrong = 1;
    }
}

/* Eight columns of eight cells, five bytes a page and reach 8. Labels of width 1, 3, 3 and 1. */
static const uint8_t recipe[] = {0x13, 0x00, 0x08, 0x02, 0x00, 0x01, 0x01, 0x00, 0x05, 0x01, 0x00, 0x07, 0x00, 0x00, 0x08};
enum { PAGES = 3, CELLS = 64, ROW = CELLS / 8, PAGE = 2 * ROW, PAYLOAD = 5, REACH = 8 };

/* Bytes of their own on the heap, so that the sanitizer sees a step beside them. */
struct memory {
    uint8_t *bytes;
    size_t len;
    uint32_t pages;
};

static struct memory fresh(uint32_t pages, size_t len)
{
    struct memory m = {malloc(len), len, pages};
    if (m.bytes == NULL)
        abort();
    memset(m.bytes, 0, len);
    return m;
}

static int32_t write_page(const struct memory *m, uint32_t page, const uint8_t *payload, size_t len)
{
    return pizqarod_write(recipe, sizeof recipe, m->pages, m->bytes, m->len, page, payload, len);
}

static int32_t read_page(const struct memory *m, uint32_t page, uint8_t *payload, size_t len)
{
    return pizqarod_read(recipe, sizeof recipe, m->pages, m->bytes, m->len, page, payload, len);
}

static int32_t patrol_page(const struct memory *m, uint32_t page)
{
    return pizqarod_patrol(recipe, sizeof recipe, m->pages, m->bytes, m->len, page);
}

/* All three calls are refused alike, and change neither the memory nor the payload. */
static void refused(const char *what, const uint8_t *bytes_of_recipe, size_t recipe_len, const struct memory *m,
                    uint32_t page, size_t payload_len, int32_t number)
{
    uint8_t payload[64], kept_payload[64], kept[256];
    memset(payload, 0x5a, sizeof payload);
    memcpy(kept_payload, payload, sizeof payload);
    memcpy(kept, m->bytes, m->len);
    expect(what, pizqarod_write(bytes_of_recipe, recipe_len, m->pages, m->bytes, m->len, page, payload, payload_len), -number);
    expect(what, pizqarod_read(bytes_of_recipe, recipe_len, m->pages, m->bytes, m->len, page, payload, payload_len), -number);
    if (number != PIZQAROD_WRONG_LENGTH)
        expect(what, pizqarod_patrol(bytes_of_recipe, recipe_len, m->pages, m->bytes, m->len, page), -number);
    expect_same(what, payload, kept_payload, sizeof payload);
    expect_same(what, m->bytes, kept, m->len);
}

static void refuse_recipes(const struct memory *m)
{
    static const uint8_t unknown_chain[] = {0x15, 0x00, 0x08};
    static const uint8_t no_columns[] = {0x13, 0x00, 0x00};
    static const uint8_t too_many_cells[] = {0x14, 0x01, 0x01};
    static const uint8_t unknown_kind[] = {0x13, 0x00, 0x08, 0x04};
    static const uint8_t odd_extension[] = {0x13, 0x00, 0x08, 0x02, 0x00, 0x01, 0x03};
    static const uint8_t open_too_short[] = {0x13, 0x00, 0x08, 0x00, 0x00, 0x07};
    static const uint8_t nine_of_eight[] = {0x13, 0x00, 0x09, 0x02, 0x00, 0x01, 0x01, 0x00, 0x05};
    uint8_t longer[sizeof recipe + 1] = {0};
    memcpy(longer, recipe, sizeof recipe);
    refused("no recipe", recipe, 0, m, 0, PAYLOAD, PIZQAROD_RECIPE_ENDS);
    refused("a recipe cut off", recipe, sizeof recipe - 1, m, 0, PAYLOAD, PIZQAROD_RECIPE_ENDS);
    refused("an unknown chain", unknown_chain, sizeof unknown_chain, m, 0, PAYLOAD, PIZQAROD_UNKNOWN_CHAIN);
    refused("a byte left over", longer, sizeof longer, m, 0, PAYLOAD, PIZQAROD_BYTES_LEFT_OVER);
    refused("no columns", no_columns, sizeof no_columns, m, 0, PAYLOAD, PIZQAROD_COLUMNS);
    refused("too many cells", too_many_cells, sizeof too_many_cells, m, 0, PAYLOAD, PIZQAROD_COLUMNS);
    refused("an unknown kind", unknown_kind, sizeof unknown_kind, m, 0, PAYLOAD, PIZQAROD_STAGE_KIND);
    refused("an extension at width 3", odd_extension, sizeof odd_extension, m, 0, PAYLOAD, PIZQAROD_STAGE_KIND);
    refused("an open code that is too short", open_too_short, sizeof open_too_short, m, 0, PAYLOAD, PIZQAROD_STAGE_SIZE);
    refused("nine places for eight elements", nine_of_eight, sizeof nine_of_eight, m, 0, PAYLOAD, PIZQAROD_STAGE_SIZE);
}

static void refuse_memories(void)
{
    /* Two cells in one column and two message bits: no byte. */
    static const uint8_t no_byte[] = {0x11, 0x00, 0x01, 0x02, 0x00, 0x01, 0x00, 0x00, 0x01};
    struct memory m = fresh(PAGES, (size_t)PAGES * PAGE);
    refused("a page too far", recipe, sizeof recipe, &m, PAGES, PAYLOAD, PIZQAROD_PAGE_OUT_OF_RANGE);
    refused("a page too far comes before the payload", recipe, sizeof recipe, &m, UINT32_MAX, 0, PIZQAROD_PAGE_OUT_OF_RANGE);
    refused("a payload too short", recipe, sizeof recipe, &m, 0, PAYLOAD - 1, PIZQAROD_WRONG_LENGTH);
    refused("a payload too long", recipe, sizeof recipe, &m, 0, PAYLOAD + 1, PIZQAROD_WRONG_LENGTH);
    refused("no payload", recipe, sizeof recipe, &m, 0, 0, PIZQAROD_WRONG_LENGTH);
    refused("too few cells for a byte", no_byte, sizeof no_byte, &(struct memory){m.bytes, 2, 1}, 0, PAYLOAD, PIZQAROD_UNFIT_MEMORY);
    refused("no byte comes before the page", no_byte, sizeof no_byte, &(struct memory){m.bytes, 2, 1}, 9, 0, PIZQAROD_UNFIT_MEMORY);
    refused("a byte is missing", recipe, sizeof recipe, &(struct memory){m.bytes, m.len - 1, PAGES}, 0, PAYLOAD, PIZQAROD_UNFIT_MEDIUM);
    refused("a byte too many", recipe, sizeof recipe, &(struct memory){m.bytes, PAGE + 1, 1}, 9, 0, PIZQAROD_UNFIT_MEDIUM);
    refused("bytes come before the page's size", no_byte, sizeof no_byte, &(struct memory){m.bytes, 3, 1}, 0, 0, PIZQAROD_UNFIT_MEDIUM);
    refused("no pages", recipe, sizeof recipe, &(struct memory){m.bytes, 0, 0}, 0, PAYLOAD, PIZQAROD_UNFIT_MEDIUM);
    refused("no bytes", recipe, sizeof recipe, &(struct memory){m.bytes, 0, PAGES}, 0, PAYLOAD, PIZQAROD_UNFIT_MEDIUM);
    refuse_recipes(&m);
    free(m.bytes);

    struct memory many = fresh(65536, (size_t)65536 * PAGE);
    expect("65,536 pages", patrol_page(&many, 0), -PIZQAROD_UNFIT_MEDIUM);
    many.pages = 65535;
    many.len = (size_t)65535 * PAGE;
    expect("65,535 pages", patrol_page(&many, 65534), 0);
    free(many.bytes);
}

/* Eight columns of two cells: a byte and a spare bit. The last column with the label 1 of stage 2 has the cells 1 1. */
static void refuse_spare_bits(void)
{
    static const uint8_t nine_bits[] = {0x11, 0x00, 0x08, 0x02, 0x00, 0x01, 0x00, 0x00, 0x08};
    uint8_t page[] = {0x00, 0x03, 0x00, 0x00}, kept[] = {0x00, 0x03, 0x00, 0x00}, payload = 0x77;
    expect("a spare bit read", pizqarod_read(nine_bits, sizeof nine_bits, 1, page, sizeof page, 0, &payload, 1), -PIZQAROD_SPARE_BIT_SET);
    expect("a spare bit patrolled", pizqarod_patrol(nine_bits, sizeof nine_bits, 1, page, sizeof page, 0), -PIZQAROD_SPARE_BIT_SET);
    expect("the payload stays", payload, 0x77);
    expect_same("the page stays", page, kept, sizeof page);
}

static void flip(uint8_t *page, unsigned cell)
{
    page[cell / 8] ^= (uint8_t)(0x80 >> cell % 8);
}

static void blank(uint8_t *page, unsigned cell)
{
    page[ROW + cell / 8] |= (uint8_t)(0x80 >> cell % 8);
}

static bool is_blank(const uint8_t *page, unsigned cell)
{
    return (page[ROW + cell / 8] & (0x80 >> cell % 8)) != 0;
}

/* A page of zeros that loses cells in as many columns: flips score 2 and blanks 1, and at 8 nothing is near enough. */
static void lose_cells(void)
{
    static const struct {
        unsigned flips, blanks;
        int32_t answer;
    } cases[] = {{3, 1, 7}, {0, 7, 7}, {4, 0, -PIZQAROD_NO_CODEWORD}, {0, 8, -PIZQAROD_NO_CODEWORD}};
    static const uint8_t zeros[PAYLOAD];
    for (size_t k = 0; k < sizeof cases / sizeof cases[0]; k++) {
        struct memory m = fresh(1, PAGE);
        uint8_t payload[PAYLOAD];
        memset(payload, 0x5a, sizeof payload);
        expect("a write", write_page(&m, 0, zeros, PAYLOAD), 0);
        for (unsigned j = 0; j < cases[k].flips + cases[k].blanks; j++)
            (j < cases[k].flips ? flip : blank)(m.bytes, 9 * j);
        expect("a read", read_page(&m, 0, payload, PAYLOAD), cases[k].answer);
        expect("a patrol", patrol_page(&m, 0), cases[k].answer);
        if (cases[k].answer >= 0) {
            expect_same("the bytes read", payload, zeros, PAYLOAD);
            expect("a read of the mended page", read_page(&m, 0, payload, PAYLOAD), (int32_t)cases[k].blanks);
        }
        free(m.bytes);
    }
}

static uint32_t state = 20261126;

static uint32_t draw(uint32_t n)
{
    state = state * 1664525u + 1013904223u;
    return (state >> 8) % n;
}

/* Wears cells of a page while its harm stays below the reach, and answers that harm. */
static int32_t wear(uint8_t *page, int32_t harm)
{
    bool flipped[CELLS] = {false};
    for (unsigned tries = draw(8); tries > 0; tries--) {
        unsigned cell = draw(CELLS);
        if (flipped[cell] || is_blank(page, cell))
            continue;
        if (draw(4) == 0 && harm + 1 < REACH) {
            blank(page, cell);
            harm += 1;
        } else if (harm + 2 < REACH) {
            flip(page, cell);
            flipped[cell] = true;
            harm += 2;
        }
    }
    return harm;
}

/* What was written comes back over every life whose harm stays below the reach. */
static void live(void)
{
    for (int life = 0; life < 200; life++) {
        struct memory m = fresh(PAGES, (size_t)PAGES * PAGE);
        uint8_t written[PAGES][PAYLOAD] = {{0}};
        int32_t blanks[PAGES] = {0};
        for (int step = 0; step < 12; step++) {
            uint32_t page = draw(PAGES);
            uint8_t *bytes = m.bytes + (size_t)page * PAGE, payload[PAYLOAD], kept[PAGES * PAGE];
            if (draw(2) == 0) {
                for (int i = 0; i < PAYLOAD; i++)
                    written[page][i] = (uint8_t)draw(256);
                expect("a write", write_page(&m, page, written[page], PAYLOAD), blanks[page]);
            }
            expect("a fresh read", read_page(&m, page, payload, PAYLOAD), blanks[page]);
            int32_t harm = wear(bytes, blanks[page]);
            memcpy(kept, m.bytes, m.len);
            expect("a read", read_page(&m, page, payload, PAYLOAD), harm);
            expect_same("the bytes read", payload, written[page], PAYLOAD);
            expect_same("the memory read", m.bytes, kept, m.len);
            expect("a patrol", patrol_page(&m, page), harm);
            blanks[page] = 0;
            for (unsigned cell = 0; cell < CELLS; cell++)
                blanks[page] += is_blank(bytes, cell);
            memcpy(kept + (size_t)page * PAGE, bytes, ROW);
            expect_same("the other pages and the marks", m.bytes, kept, m.len);
        }
        free(m.bytes);
    }
}

int main(void)
{
    refuse_memories();
    refuse_spare_bits();
    lose_cells();
    live();
    puts(wrong ? "player: wrong answers" : "player: every answer is right");
    return wrong;
}
