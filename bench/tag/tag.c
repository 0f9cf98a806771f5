// The tag of a state in plain C, to compare with: the checks of making it, and SipHash-2-4 of its ten words.
#include "tag.h"

static inline uint64_t rotl(uint64_t x, int k) { return x << k | x >> (64 - k); }

#define SIP_ROUND                                                             \
    do {                                                                      \
        v0 += v1; v1 = rotl(v1, 13); v1 ^= v0; v0 = rotl(v0, 32);             \
        v2 += v3; v3 = rotl(v3, 16); v3 ^= v2;                                \
        v0 += v3; v3 = rotl(v3, 21); v3 ^= v0;                                \
        v2 += v1; v1 = rotl(v1, 17); v1 ^= v2; v2 = rotl(v2, 32);             \
    } while (0)

#define COMPRESS(word)                                                        \
    do {                                                                      \
        uint64_t m = (word);                                                  \
        v3 ^= m;                                                              \
        SIP_ROUND;                                                            \
        SIP_ROUND;                                                            \
        v0 ^= m;                                                              \
    } while (0)

static uint64_t hash(uint64_t k0, uint64_t k1, uint64_t place, uint64_t number, const uint64_t amounts[8])
{
    uint64_t v0 = k0 ^ 0x736f6d6570736575;
    uint64_t v1 = k1 ^ 0x646f72616e646f6d;
    uint64_t v2 = k0 ^ 0x6c7967656e657261;
    uint64_t v3 = k1 ^ 0x7465646279746573;
    COMPRESS(place);
    COMPRESS(number);
    for (int i = 0; i < 8; i++)
        COMPRESS(amounts[i]);
    COMPRESS((uint64_t)80 << 56);
    v2 ^= 0xff;
    SIP_ROUND;
    SIP_ROUND;
    SIP_ROUND;
    SIP_ROUND;
    return v0 ^ v1 ^ v2 ^ v3;
}

uint8_t c_tag(uint64_t k0, uint64_t k1, uint64_t place, uint64_t number, const uint64_t amounts[8], uint64_t *out)
{
    if (place > 63)
        return 1;
    if (number < 1 || number > 1000000000)
        return 2;
    uint64_t total = 0;
    for (int i = 0; i < 8; i++) {
        if (amounts[i] > 2100000000000000 - total)
            return 3;
        total += amounts[i];
    }
    *out = hash(k0, k1, place, number, amounts);
    return 0;
}
