/* For a target without a C library. */
#define bool _Bool
#define true 1
#define false 0
