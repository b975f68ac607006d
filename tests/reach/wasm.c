/* The session in WebAssembly, for node. */
#include "reach.h"

__attribute__((import_module("env"), import_name("print"))) void print_bytes(const char *text, unsigned length);
__attribute__((export_name("run"))) void run(void);

void print(const char *text)
{
    unsigned length = 0;
    while (text[length] != 0) {
        length++;
    }
    print_bytes(text, length);
}

void run(void)
{
    session();
}
