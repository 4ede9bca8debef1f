/* The input, byte by byte; 0 after its end. */
#ifndef INPUT_H
#define INPUT_H

#include <stddef.h>
#include <stdint.h>

typedef struct {
    const uint8_t *at;
    size_t left;
} Input;

size_t byte(Input *in);
size_t below(Input *in, size_t limit);

#endif
