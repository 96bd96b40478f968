/* sources.h: the two current sources, IA and IB, made of the inputs S1 and S3 by the configuration (document 02, A5).
 */
#ifndef SOURCES_H
#define SOURCES_H

#include <stdbool.h>
#include <stdint.h>

#include "numbers.h"

/* What comes in: a block's slices, in their order. S1 and S3 are the current inputs. */
enum { V, S1, S3, SLICES };

enum { IA, IB, SOURCES };

/* So many times S1 and so many times S3, halved so often. */
struct source {
    int64_t m1, m3;
    int halvings; /* 1 where both inputs are taken, 0 where one is or none */
};

bool configuration_allowed(int64_t configuration);

/* What the eight bits of a configuration make of a source, IA or IB. */
struct source source_from(int64_t configuration, int which);

/* A source's value at a sample. The sum is at most four times an end of the range; it is halved before it is clipped,
   and no count has this clip. */
static inline int64_t source_value(const struct source *source, int64_t s1, int64_t s3)
{
    return clipped(halved_down(source->m1 * s1 + source->m3 * s3, source->halvings));
}

#endif
