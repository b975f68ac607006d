/* malloc, counted: how many blocks were asked for, how many bytes were given in blocks, how many blocks are held, and which of them is refused, from 1;
 * 0 for none. */
#ifndef COUNTED_H
#define COUNTED_H

#include <stddef.h>

extern size_t blocks_asked;
extern size_t bytes_given;
extern size_t blocks_held;
extern size_t block_refused;

#endif
