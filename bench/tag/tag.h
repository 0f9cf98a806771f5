#include <stdint.h>

// Both write the tag of a state to *out and answer 0, or answer the number of the refusal.

// In plain C: tag.c.
uint8_t c_tag(uint64_t k0, uint64_t k1, uint64_t place, uint64_t number, const uint64_t amounts[8], uint64_t *out);

// The proved one: the crate tag_c.
uint8_t yulvenost_tag(uint64_t k0, uint64_t k1, uint64_t place, uint64_t number, const uint64_t amounts[8], uint64_t *out);
