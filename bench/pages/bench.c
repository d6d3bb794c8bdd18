/* The time to correct a whole page of a recipe: clean, with half of the harm that the recipe undoes, and with all of it. */
#include <stdbool.h>
#include <stdint.h>
#include <stdio.h>
#include <string.h>
#include <time.h>

size_t page_cells(const uint8_t *recipe, size_t recipe_len);
size_t page_bits(const uint8_t *recipe, size_t recipe_len);
size_t page_reach(const uint8_t *recipe, size_t recipe_len);
bool page_encode(const uint8_t *recipe, size_t recipe_len, const uint8_t *message, size_t message_len, uint8_t *word,
                 size_t word_len);
size_t page_correct(const uint8_t *recipe, size_t recipe_len, uint8_t *word, size_t word_len, const uint8_t *marks,
                    size_t marks_len);

bool nest_encode(const uint8_t *message, size_t message_len, uint8_t *word, size_t word_len);
size_t nest_correct(uint8_t *word, size_t word_len, const uint8_t *marks, size_t marks_len);

enum { MOST = 4096, PATTERNS = 8, TRIES = 5 };

struct recipe {
    const char *name;
    size_t len;
    uint8_t bytes[18];
};

static const struct recipe recipes[] = {
    {"Reed-Muller r = 3, N = 8", 15, {0x13, 0, 8, 2, 0, 1, 1, 0, 5, 1, 0, 7, 0, 0, 8}},
    {"Reed-Muller r = 4, N = 16", 18, {0x14, 0, 16, 2, 0, 1, 1, 0, 9, 1, 0, 13, 1, 0, 15, 0, 0, 16}},
    {"Reed-Muller r = 4, N = 256", 18, {0x14, 1, 0, 2, 0, 1, 2, 0, 1, 2, 0, 1, 2, 0, 1, 0, 1, 0}},
    {"even n = 5, N = 16", 9, {0x25, 0, 16, 2, 0, 1, 1, 0, 12}},
    {"even n = 7, N = 64, extension", 9, {0x27, 0, 64, 2, 0, 1, 3, 0, 48}},
    {"even n = 9, N = 256, K = 224", 9, {0x29, 1, 0, 2, 0, 1, 1, 0, 224}},
};

static uint8_t sent[MOST], word[MOST], errors[PATTERNS][MOST], marks[PATTERNS][MOST];
static uint32_t state = 12345;

static uint32_t draw(uint32_t n)
{
    state = state * 1103515245u + 12345u;
    return (state >> 16) % n;
}

/* As many wrong cells as blank ones, as far as the harm goes; a rest of 1 or 2 is blank. */
static void make_pattern(int p, size_t cells, size_t harm)
{
    memset(errors[p], 0, cells);
    memset(marks[p], 0, cells);
    for (size_t left = harm; left > 0;) {
        uint32_t cell = draw((uint32_t)cells);
        if (errors[p][cell] || marks[p][cell])
            continue;
        if (left >= 3 && left % 3 == 0) {
            errors[p][cell] = 1;
            left -= 2;
        } else {
            marks[p][cell] = 1;
            left -= 1;
        }
    }
}

static double now(void)
{
    struct timespec t;
    clock_gettime(CLOCK_MONOTONIC, &t);
    return (double)t.tv_sec + 1e-9 * (double)t.tv_nsec;
}

/* a page of a recipe, or, where there is no recipe, of the pile that is twelve levels deep */
static size_t correct(const struct recipe *r, size_t cells, const uint8_t *blank)
{
    return r ? page_correct(r->bytes, r->len, word, cells, blank, cells) : nest_correct(word, cells, blank, cells);
}

/* the best of some tries, in microseconds a page */
static double time_of(const struct recipe *r, size_t cells, size_t harm, int rounds)
{
    double best = 1e9;
    for (int t = 0; t < TRIES; t++) {
        double start = now();
        for (int k = 0; k < rounds; k++) {
            int p = k % PATTERNS;
            for (size_t i = 0; i < cells; i++)
                word[i] = sent[i] ^ errors[p][i];
            if (correct(r, cells, marks[p]) != harm || memcmp(word, sent, cells) != 0)
                puts("not corrected");
        }
        double took = now() - start;
        if (took < best)
            best = took;
    }
    return 1e6 * best / rounds;
}

static void time_harms(const struct recipe *r, const char *name, size_t cells, size_t bits, size_t reach, int rounds)
{
    printf("%-30s %5zu cells %5zu bits reach %4zu:", name, cells, bits, reach);
    size_t harms[] = {0, reach / 2, reach - 1};
    for (int h = 0; h < 3; h++) {
        for (int p = 0; p < PATTERNS; p++)
            make_pattern(p, cells, harms[h]);
        printf(" %9.1f", time_of(r, cells, harms[h], rounds));
    }
    puts(" us");
}

int main(void)
{
    static uint8_t message[MOST];
    for (size_t i = 0; i < sizeof recipes / sizeof recipes[0]; i++) {
        const struct recipe *r = &recipes[i];
        size_t cells = page_cells(r->bytes, r->len), bits = page_bits(r->bytes, r->len), reach = page_reach(r->bytes, r->len);
        for (size_t b = 0; b < bits; b++)
            message[b] = (uint8_t)draw(2);
        if (cells == 0 || !page_encode(r->bytes, r->len, message, bits, sent, cells))
            return 1;
        time_harms(r, r->name, cells, bits, reach, cells > 1000 ? 40 : 400);
    }
    if (!nest_encode(message, 14, sent, MOST))
        return 1;
    time_harms(NULL, "twelve piles, each in the next", MOST, 14, 1024, PATTERNS);
    return 0;
}
