/* What the device asks of its board. Another board is another board.c. */
#ifndef BOARD_H
#define BOARD_H

#include <stddef.h>
#include <stdint.h>

/* How many milliseconds have passed since the start. */
uint64_t board_moment(void);

/* Takes the bytes that have come from the line, as many as there is room for. A board holds 512 of them at most. */
size_t board_read(uint8_t *bytes, size_t room);

/* Sends bytes to the line, and returns once the last is handed over. */
void board_write(const uint8_t *bytes, size_t length);

/* Whether the line may have this rate, in bits per second. */
_Bool board_has_rate(uint32_t rate);

/* The line's rate, in bits per second, once what was sent has gone out at the rate before. */
void board_set_rate(uint32_t rate);

/* The next key that was pressed, or 0. */
uint8_t board_key(void);

/* Shows a text to whoever stands at the device: for a test. */
void board_show(const char *text);

/* How many bytes of the stack were ever used. */
uint32_t board_stack(void);

/* Sleeps until something has come or a millisecond is over. */
void board_sleep(void);

/* The address and the rate that stay over a reset; false where nothing was kept. A device that is sold keeps them in flash. A reset while they
 * are kept leaves those before or the new ones, and no mixture. */
_Bool board_kept(uint32_t *address, uint32_t *rate);
void board_keep(uint32_t address, uint32_t rate);

#endif
