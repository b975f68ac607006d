/* Who has a port. */
#ifndef OWNER_H
#define OWNER_H

#include <stddef.h>

/* Writes the name and the number of the process that has a port open, as far as /proc tells it: of the one that has locked it, else of another one than
 * this. The text is empty where none is found. */
void find_owner(const char *path, char *owner, size_t room);

#endif
