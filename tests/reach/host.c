/* The session on a host with a C library. */
#include <stdio.h>

#include "reach.h"

void print(const char *text)
{
    (void)fputs(text, stdout);
}

int main(void)
{
    session();
    return 0;
}
