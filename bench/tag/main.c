// Times the tag of a state, proved and in plain C. Each tag is a key word of the next.
#include "tag.h"
#include <stdio.h>
#include <time.h>

#define TAGS 4000000
#define TURNS 9

typedef uint8_t (*tagger)(uint64_t, uint64_t, uint64_t, uint64_t, const uint64_t[8], uint64_t *);

static double now_ns(void)
{
    struct timespec t;
    clock_gettime(CLOCK_MONOTONIC, &t);
    return t.tv_sec * 1e9 + t.tv_nsec;
}

// Nanoseconds per tag, 0 where one is refused; *last is the last tag.
static double timed(tagger tag, uint64_t *last)
{
    uint64_t amounts[8] = {10, 20, 30, 40, 50, 60, 70, 80};
    uint64_t key = 0x0706050403020100;
    double start = now_ns();
    for (long n = 0; n < TAGS; n++) {
        if (tag(key, 0x0f0e0d0c0b0a0908, n % 64, n + 1, amounts, &key) != 0)
            return 0;
        amounts[n % 8] = key % 1000000;
    }
    double end = now_ns();
    *last = key;
    return (end - start) / TAGS;
}

int main(void)
{
    double proved = 0, plain = 0;
    uint64_t a, b;
    for (int turn = 0; turn < TURNS; turn++) {
        double p = timed(yulvenost_tag, &a);
        double c = timed(c_tag, &b);
        if (a != b || p == 0 || c == 0) {
            printf("different tags: proved %016llx, C %016llx\n", (unsigned long long)a, (unsigned long long)b);
            return 1;
        }
        if (turn == 0 || p < proved)
            proved = p;
        if (turn == 0 || c < plain)
            plain = c;
    }
    printf("the tag of a state, best of %d turns of %d tags, equal results\n", TURNS, TAGS);
    printf("proved: %.2f ns per tag\n", proved);
    printf("C:      %.2f ns per tag\n", plain);
    printf("ratio:  %.3f\n", proved / plain);
    return 0;
}
