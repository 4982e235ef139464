/* The resolver of the berth display, for a host program in C. */
#ifndef BERTH_H
#define BERTH_H

#include <stddef.h>
#include <stdint.h>

/* What the resolver answers. number is 0 for an answer: linked then says whether the link has an address (1) or is a mere
 * anchor (0), and length how many bytes of out are the address; layer, events and place are 0. Else number is the refusal's (4 text, 7 site, 8 address,
 * 13 output), layer its layer (1 page, 2 line, 3 board), events the events accepted so far (0 here) and place that of the
 * bad character, else 0. */
typedef struct {
    uint32_t number;
    uint32_t layer;
    uint64_t events;
    uint64_t place;
    uint32_t linked;
    uint64_t length;
} berth_answer;

/* Resolves an address against a base and a site directory into out. All texts are UTF-8 and need no end mark. A refusal
 * leaves out as it was, an answer every byte beyond it. Nothing is allocated. No pointer may be NULL, also not one to a
 * text of length 0, and out and answer may not overlap the texts or each other. */
void berth_resolve(const uint8_t *address, size_t address_length, const uint8_t *base, size_t base_length,
                   const uint8_t *directory, size_t directory_length, uint8_t *out, size_t out_length,
                   berth_answer *answer);

#endif
