/*
 * networks.h: the networks that are timed, accepted and refused, as many of a kind as are asked for.
 */
#ifndef NETWORKS_H
#define NETWORKS_H

#include <stddef.h>
#include <stdint.h>

struct kind {
    const char *name;
    uint32_t number; /* what a refinement answers */
    int single;      /* there is only one such network of a size */
    void (*state)(size_t n, uint8_t *cells);
};

enum { KINDS = 10 };

extern const struct kind kinds[KINDS];

/* Writes `count` networks of a kind, one behind the other, the same ones in every run. */
void make_networks(const struct kind *kind, size_t n, size_t count, uint8_t *cells);

#endif
