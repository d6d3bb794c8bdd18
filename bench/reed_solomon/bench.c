/* The time to correct a word of 255 symbols for 223, at several damages, beside libfec's decoder of a code of the same lengths. */
#include <fec.h>
#include <stdbool.h>
#include <stdint.h>
#include <stdio.h>
#include <string.h>
#include <time.h>

bool reed_solomon_encode(const uint8_t *message, size_t message_len, uint8_t *word, size_t len);
size_t reed_solomon_correct(uint8_t *word, size_t len, const uint8_t *marks, size_t marks_len, size_t message_len);

enum { N = 255, K = 223, PATTERNS = 64, ROUNDS = 2000, TRIES = 5 };

struct pattern {
    uint8_t errors[N], marks[N];
    int blank_places[N], blanks;
};

static struct pattern patterns[PATTERNS];
static uint8_t ours[N], theirs[N];
static void *rs;
static uint32_t state = 12345;

static uint32_t draw(uint32_t n)
{
    state = state * 1103515245u + 12345u;
    return (state >> 16) % n;
}

static void make_pattern(struct pattern *p, int wrong, int blanks)
{
    memset(p, 0, sizeof *p);
    for (int left = wrong + blanks; left > 0;) {
        uint32_t place = draw(N);
        if (p->errors[place])
            continue;
        p->errors[place] = (uint8_t)(draw(255) + 1);
        if (left-- > wrong) {
            p->marks[place] = 1;
            p->blank_places[p->blanks++] = (int)place;
        }
    }
}

static bool correct_ours(const struct pattern *p, int harm)
{
    uint8_t word[N];
    for (int i = 0; i < N; i++)
        word[i] = ours[i] ^ p->errors[i];
    return reed_solomon_correct(word, N, p->marks, N, K) == (size_t)harm && memcmp(word, ours, N) == 0;
}

static bool correct_theirs(const struct pattern *p, int harm)
{
    uint8_t word[N];
    int places[N];
    (void)harm;
    for (int i = 0; i < N; i++)
        word[i] = theirs[i] ^ p->errors[i];
    memcpy(places, p->blank_places, sizeof places);
    return decode_rs_char(rs, word, places, p->blanks) >= 0 && memcmp(word, theirs, N) == 0;
}

static double now(void)
{
    struct timespec t;
    clock_gettime(CLOCK_MONOTONIC, &t);
    return (double)t.tv_sec + 1e-9 * (double)t.tv_nsec;
}

/* the best of some tries, in microseconds a word */
static double time_of(bool (*correct)(const struct pattern *, int), int harm)
{
    double best = 1e9;
    for (int t = 0; t < TRIES; t++) {
        double start = now();
        for (int r = 0; r < ROUNDS; r++)
            if (!correct(&patterns[r % PATTERNS], harm))
                puts("not corrected");
        double took = now() - start;
        if (took < best)
            best = took;
    }
    return 1e6 * best / ROUNDS;
}

static void report(int wrong, int blanks)
{
    for (int i = 0; i < PATTERNS; i++)
        make_pattern(&patterns[i], wrong, blanks);
    double a = time_of(correct_ours, 2 * wrong + blanks), b = time_of(correct_theirs, 0);
    printf("%2d wrong, %2d blank: %8.1f us, libfec %6.1f us, ratio %.1f\n", wrong, blanks, a, b, a / b);
}

int main(void)
{
    for (int i = 0; i < K; i++)
        ours[i] = theirs[i] = (uint8_t)draw(256);
    uint8_t message[K];
    memcpy(message, ours, K);
    rs = init_rs_char(8, 0x11D, 1, 1, N - K, 0);
    if (!rs || !reed_solomon_encode(message, K, ours, N))
        return 1;
    encode_rs_char(rs, theirs, theirs + K);
    report(0, 0);
    report(8, 0);
    report(16, 0);
    report(8, 16);
    return 0;
}
