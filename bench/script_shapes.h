/* The scripts that are measured, all but the small and middle ones over full vocabularies, and
 * random ones. */
#ifndef SCRIPT_SHAPES_H
#define SCRIPT_SHAPES_H

#include "script_proofs.h"

enum { SHAPES = 13 };
extern const uint64_t UNKNOWN; /* no answer is expected */

void make_shapes(struct proof *shapes);

/* A random one, accepted unless it takes too many frames; then no answer is expected. */
void make_random_proof(struct proof *proof);

/* Makes a random one such that some refusal applies to it, or nearly. */
void damage_proof(struct proof *proof);

#endif
