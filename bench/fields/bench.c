/* Products per second in both fields of width 8, beside a plain C multiplication by log and antilog tables. */
#include <stdbool.h>
#include <stdint.h>
#include <stdio.h>
#include <time.h>

bool polynomial_scale(uint8_t *elements, size_t count, uint8_t by);
bool extension_scale(uint8_t *elements, size_t count, uint8_t by);
uint8_t polynomial_chain(const uint8_t *elements, size_t count);
uint8_t extension_chain(const uint8_t *elements, size_t count);

enum { COUNT = 4096, ROUNDS = 20000, TRIES = 5 };

static uint8_t logs[256], antilogs[512], buffer[COUNT];
static volatile uint8_t sink;

static void make_tables(void)
{
    unsigned x = 1;
    for (unsigned i = 0; i < 512; i++) {
        antilogs[i] = (uint8_t)x;
        if (i < 255)
            logs[x] = (uint8_t)i;
        x = (x << 1) ^ (x & 0x80 ? 0x11D : 0);
    }
}

static uint8_t multiply(uint8_t a, uint8_t b)
{
    return a && b ? antilogs[logs[a] + logs[b]] : 0;
}

/* kept out of line, as the calls into the library are */
__attribute__((noinline)) static bool c_scale(uint8_t *elements, size_t count, uint8_t by)
{
    for (size_t i = 0; i < count; i++)
        elements[i] = multiply(elements[i], by);
    return true;
}

__attribute__((noinline)) static uint8_t c_chain(const uint8_t *elements, size_t count)
{
    uint8_t all = 1;
    for (size_t i = 0; i < count; i++)
        all = multiply(all, elements[i]);
    return all;
}

static double now(void)
{
    struct timespec t;
    clock_gettime(CLOCK_MONOTONIC, &t);
    return (double)t.tv_sec + 1e-9 * (double)t.tv_nsec;
}

static void fill(void)
{
    unsigned x = 12345;
    for (size_t i = 0; i < COUNT; i++) {
        x = x * 1103515245u + 12345u;
        buffer[i] = (uint8_t)((x >> 16) % 255 + 1);
    }
}

/* the best of some tries, in seconds for each product */
static double time_scale(bool (*scale)(uint8_t *, size_t, uint8_t))
{
    double best = 1e9;
    for (int t = 0; t < TRIES; t++) {
        fill();
        double start = now();
        for (int r = 0; r < ROUNDS; r++)
            if (!scale(buffer, COUNT, 3))
                puts("refused");
        double took = now() - start;
        sink = buffer[0];
        if (took < best)
            best = took;
    }
    return best / ((double)COUNT * ROUNDS);
}

static double time_chain(uint8_t (*chain)(const uint8_t *, size_t))
{
    double best = 1e9;
    fill();
    for (int t = 0; t < TRIES; t++) {
        double start = now();
        for (int r = 0; r < ROUNDS / 4; r++)
            sink = chain(buffer, COUNT);
        double took = now() - start;
        if (took < best)
            best = took;
    }
    return best / ((double)COUNT * (ROUNDS / 4));
}

static void report(const char *name, double plain, double polynomial, double extension)
{
    printf("%s: plain C %.0f M/s, polynomial %.0f M/s (ratio %.2f), extension %.0f M/s (ratio %.2f)\n", name,
           1e-6 / plain, 1e-6 / polynomial, polynomial / plain, 1e-6 / extension, extension / plain);
}

int main(void)
{
    make_tables();
    report("passes over a buffer", time_scale(c_scale), time_scale(polynomial_scale), time_scale(extension_scale));
    report("chains of products", time_chain(c_chain), time_chain(polynomial_chain), time_chain(extension_chain));
    return 0;
}
