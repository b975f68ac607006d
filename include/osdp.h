/*
 * OSDP for C, and for any language that calls C: a panel, a device, and a monitor that listens to a line.
 *
 * The functions are proved: definitions of the machines state what each does, and Rattle's prover has checked that it does so. They
 * are in the archive libosdp_c.a, which `rt lib` builds from crates/osdp_c. This page alone stands between a caller and the proof,
 * and it is not proved. `./install` puts the archive in place as libosdp.a, with a heap over malloc in it:
 * cc FILE $(pkg-config --cflags --libs osdp).
 *
 * Nothing here reads, writes, sleeps or keeps a clock. The program waits for bytes, takes the moment, reads all that is there,
 * hands both in, and writes the bytes that it is given. A panel's program takes the moment anew just before it writes.
 *
 * Words.      A machine is a panel, a device or a monitor. A burst is the bytes of one packet that is to be written. A run is the bytes
 *             that come without a silence as long as the setting `gap`. An entry is the number of a device in its panel. An exchange
 *             is one packet of a panel, its repeats and its answer. An order is taken once the device has answered it, by a NAK too;
 *             but NAK 4, NAK 5 and BUSY are no such answers. An event is offered once an answer that carries it is to be written.
 *             docs/PROTOCOL.md has the other words.
 * Units.      Moments and times are in milliseconds, of any clock that doesn't go backwards. A moment that lies before the greatest
 *             one seen counts as that one, but an event is as old as its own moment says. One that lies more than a day after the
 *             greatest is refused (the setting `clock_limit`).
 *             Lengths and counts are in bytes where nothing else is said.
 * Ownership.  A handle is two words that the caller owns. All zeros is none: it holds no machine. `new` puts a machine on the heap and
 *             into the handle, and `free` takes it away. Bytes, texts and structs stay the caller's. No call keeps a pointer after it
 *             returns, and none gives a pointer into a machine: results are copied into the caller's structs.
 * Results.    Each call that can be refused gives a status. A refused call has changed nothing: no machine, no handle, and
 *             nothing that it would have written. Where a call does otherwise, its text says so. A status that is named below without
 *             a reason has the meaning that stands at `osdp_status`.
 * Writing.    A struct is written whole, except for its arrays: of an array as many bytes are written as its length says, and the
 *             others stay as they were. Nothing beyond a struct is written. No struct that a call reads or writes has padding.
 * Heap.       `osdp_panel_new` takes 7,592 bytes in four blocks. `osdp_panel_add` takes 3,067 bytes, and 1,443 for each command that may
 *             wait, in five blocks. `osdp_device_new` takes 11,000 bytes, the capabilities, and 1,443
 *             for each event that may wait, in five blocks, or in four without capabilities. Where a room in bytes is given, 10 bytes
 *             for each command and the room stand in place of a panel's 1,443, and the 3,067 are the most. For a device 10 bytes for each
 *             event and the room stand in place of the 1,443. `free` gives all back. No other call of a panel or a device takes
 *             memory. `osdp_monitor_new` takes 26,336 bytes in three blocks. The calls by which a monitor hears take 2,928 bytes for each
 *             address, and its text. A call for which there is no memory is refused. Then nothing has changed, except that a monitor
 *             stops. docs/SIZES.md has all of these numbers.
 * Stack.      Each call takes at most 4 KiB of stack, except that `osdp_monitor_bytes` takes at most 5, and `osdp_panel_new` and
 *             `osdp_monitor_new` at most 8. What a heap over malloc takes of the stack is counted in. This was measured and counted on
 *             64-bit x86, in a program that is linked with `-z now`. One that binds calls of the C library late takes some 3 KiB more
 *             at the first of each.
 * Targets.    The archive is built for 64-bit x86 and ARM. For 32-bit ARM, RISC-V, x86 and WebAssembly, and for 64-bit ARM,
 *             `tools/retarget` lowers the proved module of 64-bit x86: what it makes is tested, and not proved. On a 32-bit target a
 *             count or a length is an `osdp_size`, of 64 bits.
 *
 * What the caller owes. No proof checks it. Each point says what happens otherwise:
 *
 * - A handle is all zeros, or what the calls on it left there. Use no copy of it beside it, and change none of its words: else
 *   memory is used that was freed, and anything may happen. The three kinds of handle have fields of different names, so that the
 *   compiler finds one that is used as another.
 * - A handle is used by one thread at a time, in one call at a time, and in no signal handler, since each call takes the machine
 *   out of its handle while it runs. Two calls at once find no machine (OSDP_NO_MACHINE), or both find it, and anything may happen.
 *   Another thread may take a handle over where the heap is one that threads may share.
 * - Each pointer is good and aligned: to as much as the call reads or writes, and to memory that is initialised where it is read;
 *   else anything may happen. A pointer to bytes, a text or records may be null where their length is 0. With another length the
 *   call is refused with OSDP_BAD_LENGTH, by the functions at the end of this page. No other pointer may be null.
 * - What a call writes overlaps nothing else that the same call gets: else anything may be written. So don't hand the bytes of
 *   an answer to `osdp_device_step` together with the struct in which they stand. Copy them, or use another struct.
 * - The stack has room (see above): else other memory is overwritten. `struct osdp_report` and `struct osdp_answer` have 2.9 KB
 *   each. Make them static where a task's stack is small.
 * - `rattle_alloc`, `rattle_realloc` and `rattle_dealloc` (below) are a heap, and `memcpy`, `memmove` and `memset` are those of
 *   C: else anything may happen.
 * - Moments are taken after the wait and before the read, from a clock that doesn't go backwards, and goes on while the host
 *   sleeps. So where the program stands still in between, what is read is no older than the moment says. Where a moment is too
 *   early, gaps and waits end too late. Where it is too late, they end too early: packets are cut in two, and answers that come are not waited for. A moment that
 *   lies more than `clock_limit` after the greatest one seen is refused (OSDP_MOMENT_TOO_FAR), and nothing has changed: the clock
 *   has failed, or the host has slept. If it has slept, hand the moment to `osdp_panel_set_moment` or `osdp_device_set_moment`, and
 *   go on. The panel then likely reports its sessions as lost. The first moment may be any, so take it with care: until the clock
 *   reaches the greatest moment seen, time stands still for the machine.
 * - Bursts are written at once, whole and in their order: else the other end reads a packet that was never meant, or none. One that
 *   can't be written at once isn't written at all: for the machine it is lost on the line. A panel's burst is asked for at a moment
 *   that is taken just before it is written (`osdp_panel_write`): else an order goes out whose last moment has passed.
 * - Each machine is freed: else its memory is leaked.
 *
 * What is promised of a line on which one panel speaks, where both ends are these machines and the premises hold. No order is taken
 * twice. In each session orders are taken in order, and each that is settled has the answer that the device gave. In each session an
 * event is reported once at most, and in order. None is passed over but those that a restart of the device threw away, and those that
 * its program withdrew or let lapse. This holds whatever calls are made, at whatever moments, and however bytes are cut. And at no moment after
 * its last one (`until`) does a panel give out the packet of an order. docs/HEADLINE.md has the promise in full, and under "What is asked" its premises. docs/PROGRAMS.md
 * has what a program does for each. Above all `quiet_wait` is more than twice the longest time that a packet takes until it is read,
 * and addresses are given by the rule for addresses there.
 */
#ifndef OSDP_H
#define OSDP_H

/* The product's version; and as a number, 10,000 for each whole version, 100 for the part after it and 1 for the last one. */
#define OSDP_VERSION "0.1.0"
#define OSDP_VERSION_NUMBER 100

#include <stdbool.h>
#include <stddef.h>
#include <stdint.h>

#ifdef __cplusplus
#if defined __GNUC__ && !defined __clang__
#pragma GCC diagnostic push
#pragma GCC diagnostic ignored "-Wshadow" /* some structs have the name of the call that makes a message of them */
#endif
extern "C" {
#endif

/* ---- Counts and lengths ---- */

/*
 * A count or a length in the calls and structs. It has 64 bits on each target, and stands at a multiple of 8. Where a `size_t` has 64 bits, it is a
 * `size_t`. A struct has the same size and the same bytes on each target, so a pointer of 32 bits in it is followed by four bytes that nobody reads.
 */
#if UINTPTR_MAX > 0xFFFFFFFFu
typedef size_t osdp_size;
#define OSDP_ALIGNED
#elif defined __GNUC__
typedef uint64_t osdp_size __attribute__((aligned(8)));
#define OSDP_ALIGNED __attribute__((aligned(8)))
#else
typedef uint64_t osdp_size;
#define OSDP_ALIGNED
#endif

/* ---- Statuses ---- */

/*
 * Define OSDP_CHECK_RESULTS before this page is read to have the compiler warn of each call whose status isn't looked at. Every compiler of C23 and C++17
 * does so, and GCC and Clang for older versions too. For those, GCC still warns where the status is cast to void; write `if (call(..)) {}` there.
 */
#if !defined OSDP_CHECK_RESULTS
#define OSDP_CHECKED
#elif (defined __cplusplus && __cplusplus >= 201703L) || (defined __STDC_VERSION__ && __STDC_VERSION__ > 201710L)
#define OSDP_CHECKED [[nodiscard]]
#elif defined __GNUC__
#define OSDP_CHECKED __attribute__((warn_unused_result))
#else
#define OSDP_CHECKED
#endif

/*
 * What became of a call. From 11 on the first digit stands for the letter of a refusal of docs/PROTOCOL.md, 1 for M, 2 for B, 3 for C, 4 for N and 5 for L,
 * and the second is its number: 26 is B6.
 */
typedef enum osdp_status {
    /* The call was done. */
    OSDP_OK = 0,
    /* The handle holds no machine. */
    OSDP_NO_MACHINE = 1,
    /* `new` was called on a handle that holds a machine already. That machine stays. */
    OSDP_IN_USE = 2,
    /* The text is that of no command, or of no event. */
    OSDP_BAD_TEXT = 3,
    /* The code and data are those of a reply that carries no event. */
    OSDP_NO_EVENT = 4,
    /* The text is longer than the room for it. Its length is written all the same, and no text. */
    OSDP_TOO_SMALL = 5,
    /* No call has stopped before a command since the last answer, so there is no command to answer. */
    OSDP_NOT_ASKED = 7,
    /* The message is not of the kind that the call reads, or it has no record at that place. */
    OSDP_OTHER_MESSAGE = 8,
    /* The moment lies further after the greatest one seen than `clock_limit` allows. */
    OSDP_MOMENT_TOO_FAR = 9,

    /* M1: the code isn't in the table of commands, or of replies. */
    OSDP_UNKNOWN_CODE = 11,
    /* M2: the data have more than 1,432 bytes, or a length that the table doesn't allow for the code; or what is handed in is too long or has no record; or a
       pointer is null where bytes are to be. */
    OSDP_BAD_LENGTH = 12,
    /* M3: a count inside the data disagrees with their length. */
    OSDP_BAD_COUNT = 13,

    /* B1: there is no memory for a panel, or for one more device of it. */
    OSDP_PANEL_NO_MEMORY = 21,
    /* B2: the panel has sixteen devices already. */
    OSDP_TOO_MANY = 22,
    /* B3: the address is that of another device or reserved for one; or an address is reserved for this device by an earlier COMSET; or, of
       `osdp_panel_retarget`, a COMSET waits for this device. */
    OSDP_ADDRESS_TAKEN = 23,
    /* B4: the panel has no device of this number. */
    OSDP_NO_ENTRY = 24,
    /* B5: the address is above 126, or a setting is out of its range. */
    OSDP_PANEL_OUT_OF_RANGE = 25,
    /* B6: the address of a COMSET is 127 or above, which no device has. */
    OSDP_ADDRESS_OUT_OF_RANGE = 26,
    /* B7: the device has used up the numbers of its orders: the next one would be 2^64 - 1, which no order has. */
    OSDP_NUMBERS_USED_UP = 27,

    /* C3: as many commands wait as there is room for; or there is no room for the bytes of this one beside theirs and those of the command on its way. */
    OSDP_COMMANDS_FULL = 33,
    /* C4: the command is a POLL, which the panel sends by itself. */
    OSDP_POLL_SUBMITTED = 34,
    /* C5: the session of the device has begun. */
    OSDP_NOT_CLOSED = 35,

    /* N1: there is no memory for a device. */
    OSDP_DEVICE_NO_MEMORY = 41,
    /* N2: as many events wait as there is room for, or there is no room for the bytes of this one beside theirs. */
    OSDP_EVENTS_FULL = 42,
    /* N3: the address is above 126; or the capacity, the room in bytes or the gap is out of its range. */
    OSDP_DEVICE_OUT_OF_RANGE = 43,

    /* L1: there is no memory for a monitor, or for what it heard. In the second case the monitor has stopped. */
    OSDP_MONITOR_NO_MEMORY = 51,
    /* L2: the monitor has counted 2^60 packets or bytes, and has stopped. */
    OSDP_MONITOR_TOO_LONG = 52,
    /* L3: `prints` is none of its three numbers. */
    OSDP_MONITOR_OUT_OF_RANGE = 53,
    /* L4: the monitor stopped at an earlier call. */
    OSDP_MONITOR_STOPPED = 54
} osdp_status;

/* A status in a few words of English, which end with a zero. Never null, and valid for good. In c/osdp_texts.c, and in libosdp.a. */
const char *osdp_status_text(osdp_status status);

/* The version of the library that is linked, in the form of OSDP_VERSION. Valid for good. In c/osdp_texts.c, and in libosdp.a. */
const char *osdp_version(void);

/*
 * How many bytes a struct of this page has in the library that is linked, by its name, such as "osdp_report"; 0 where there is none of that name. It is for
 * programs that declare the structs by themselves, as in another language: where a size is another one, the library would write beyond theirs. A struct keeps
 * its size as long as the shared library keeps its number (libosdp.so.0). In c/osdp_texts.c, and in libosdp.a.
 */
osdp_size osdp_struct_size(const char *name);

/* ---- What both ends share ---- */

/* The largest sizes and counts. */
enum {
    /* The most bytes of data that a message has. */
    OSDP_MOST_DATA = 1432,
    /* The most bytes that a packet has. */
    OSDP_MOST_PACKET = 1440,
    /* The most devices that a panel has. */
    OSDP_MOST_DEVICES = 16,
    /* The most bytes that the text of a message has. A zero after it takes one more. */
    OSDP_MOST_TEXT = 5729
};

/* The codes of commands. */
enum {
    OSDP_POLL = 0x60, /* asks for the next event */
    OSDP_ID = 0x61, /* asks what the device is */
    OSDP_CAP = 0x62, /* asks what the device can do */
    OSDP_LSTAT = 0x64, /* asks for the tamper and the power of the device */
    OSDP_ISTAT = 0x65, /* asks for the states of the inputs */
    OSDP_OSTAT = 0x66, /* asks for the states of the outputs */
    OSDP_RSTAT = 0x67, /* asks for the states of the readers */
    OSDP_OUT = 0x68, /* says what outputs are to do */
    OSDP_LED = 0x69, /* says what LEDs are to do */
    OSDP_BUZ = 0x6A, /* says how a buzzer is to sound */
    OSDP_TEXT = 0x6B, /* says what a display is to show */
    OSDP_COMSET = 0x6E, /* sets the address and the rate of the device */
    OSDP_MFG = 0x80 /* a command of the device's maker */
};

/* The codes of replies. */
enum {
    OSDP_ACK = 0x40, /* the command was done; or, to a POLL, there is no event */
    OSDP_NAK = 0x41, /* the command wasn't done, and why */
    OSDP_PDID = 0x45, /* what the device is */
    OSDP_PDCAP = 0x46, /* what the device can do */
    OSDP_LSTATR = 0x48, /* the tamper and the power of the device */
    OSDP_ISTATR = 0x49, /* the states of the inputs */
    OSDP_OSTATR = 0x4A, /* the states of the outputs */
    OSDP_RSTATR = 0x4B, /* the states of the readers */
    OSDP_RAW = 0x50, /* the bits of a card */
    OSDP_FMT = 0x51, /* the characters of a card */
    OSDP_KEYPAD = 0x53, /* keys that were pressed */
    OSDP_COM = 0x54, /* confirms a COMSET */
    OSDP_BUSY = 0x79, /* the command wasn't taken, and is to be sent again; a panel does so by itself */
    OSDP_MFGREP = 0x90 /* a reply of the device's maker */
};

/* Why a command wasn't done: the reason of a NAK. A device of this library sends 2, 3, 4, 5 and 9. */
enum {
    OSDP_NAK_CHECK_CHARACTERS = 1, /* the check characters are wrong */
    OSDP_NAK_COMMAND_LENGTH = 2, /* the length of the command is wrong */
    OSDP_NAK_UNKNOWN_COMMAND = 3, /* the command is unknown */
    OSDP_NAK_UNEXPECTED_SEQUENCE = 4, /* the sequence number isn't expected */
    OSDP_NAK_SECURITY_BLOCK = 5, /* a security block isn't supported */
    OSDP_NAK_SECURITY_CONDITIONS = 6, /* the security conditions aren't met */
    OSDP_NAK_BIOMETRIC_TYPE = 7, /* the biometric type isn't supported */
    OSDP_NAK_BIOMETRIC_FORMAT = 8, /* the biometric format isn't supported */
    OSDP_NAK_RECORD_NOT_PROCESSED = 9 /* the command's record can't be processed */
};

/* A command or a reply: its code and its data. 1,436 bytes. */
struct osdp_message {
    /* How many bytes of data there are, 0 to 1,432. */
    uint16_t length;
    /* 1 where there is a message, else 0. Where it is 0, `length` and `code` are 0 too. */
    uint8_t present;
    /* The code: OSDP_POLL to OSDP_MFG of a command, OSDP_ACK to OSDP_MFGREP of a reply. */
    uint8_t code;
    uint8_t data[1432];
};

/* The bytes of one packet, to be written to the line at once and in their order. 1,444 bytes. */
struct osdp_burst {
    /* How many bytes there are, 0 to 1,440. 0: there is nothing to write. */
    uint32_t length;
    uint8_t bytes[1440];
};

/*
 * Writes the text of a command, such as `OUT 0:5:30`. docs/PROTOCOL.md has the texts.
 *
 * `data` has `length` bytes, and `text` has room for `room` bytes. The length of the text is written to `text_length`, and the text to `text`, with a zero
 * after it where there is room for one more byte. The bytes after these stay as they were. OSDP_MOST_TEXT + 1 bytes are enough for each text and its zero.
 *
 * OSDP_UNKNOWN_CODE (M1), OSDP_BAD_LENGTH (M2), OSDP_BAD_COUNT (M3): the code and data are those of no command; nothing is written.
 * OSDP_TOO_SMALL: the text is longer than the room. Its length is written, and no text.
 */
OSDP_CHECKED static inline osdp_status osdp_command_text(uint8_t code, const uint8_t *data, osdp_size length, char *text, osdp_size room, osdp_size *text_length);

/* As `osdp_command_text`, for a reply. The text of an event is that of the reply that carries it, such as `KEYPAD 0 31`. */
OSDP_CHECKED static inline osdp_status osdp_reply_text(uint8_t code, const uint8_t *data, osdp_size length, char *text, osdp_size room, osdp_size *text_length);

/* ---- The fields of a message ---- */

/* The bits of a card: the fields of a RAW. 1,434 bytes. */
struct osdp_raw {
    /* Which reader of the device has read it, counted from 0. */
    uint8_t reader;
    /* How the bits are to be understood: OSDP_CARD_RAW or OSDP_CARD_WIEGAND. */
    uint8_t format;
    /* How many bits there are, 0 to 11,424. */
    uint16_t bits;
    /* In how many bytes they stand, 0 to 1,428: bits divided by 8, rounded up. */
    uint16_t length;
    /* The bits, the first in the highest place of the first byte. */
    uint8_t bytes[1428];
};

/* Keys that were pressed: the fields of a KEYPAD. 257 bytes. */
struct osdp_keypad {
    /* Which reader of the device, counted from 0. */
    uint8_t reader;
    /* How many keys there are, 0 to 255. */
    uint8_t count;
    /* The keys, in their order. */
    uint8_t digits[255];
};

/* A card as the reader formatted it: the fields of a FMT. 258 bytes. */
struct osdp_formatted {
    /* Which reader of the device, counted from 0. */
    uint8_t reader;
    /* How the card was drawn: OSDP_CARD_FORWARD or OSDP_CARD_REVERSE. */
    uint8_t direction;
    /* How many characters there are, 0 to 255. */
    uint8_t count;
    /* The characters, in their order. */
    uint8_t digits[255];
};

/* The state of the device itself: the fields of an LSTATR. 2 bytes. */
struct osdp_local_state {
    /* OSDP_STATE_NORMAL or OSDP_STATE_TAMPERED. */
    uint8_t tamper;
    /* OSDP_STATE_NORMAL or OSDP_STATE_POWER_FAILS. */
    uint8_t power;
};

/* One byte for each input, output or reader: the fields of an ISTATR, an OSTATR or an RSTATR. 1,434 bytes. */
struct osdp_states {
    /* How many states there are, 0 to 1,432. */
    uint16_t length;
    /* Of inputs and outputs: OSDP_STATE_ACTIVE where the input is active or the output is on, else OSDP_STATE_INACTIVE. Of readers: OSDP_READER_NORMAL to
       OSDP_READER_TAMPERED. */
    uint8_t states[1432];
};

/* What a device is, without its serial number. 8 bytes. */
struct osdp_product {
    /* The maker's code. */
    uint8_t vendor[3];
    /* The maker's numbers of the model and of its version. */
    uint8_t model;
    uint8_t version;
    /* The three numbers of the firmware's version. */
    uint8_t firmware_major;
    uint8_t firmware_minor;
    uint8_t firmware_build;
};

/* What a device is: the fields of a PDID. 12 bytes. */
struct osdp_pd_id {
    /* The serial number. */
    uint32_t serial;
    struct osdp_product product;
};

/* What a device can do in one respect: one record of a PDCAP. 3 bytes. */
struct osdp_capability {
    /* OSDP_FUNCTION_CONTACT_STATUS to OSDP_FUNCTION_VERSION. */
    uint8_t function;
    /* How far the device goes in this respect, and how many it has. The standard says for each function what both numbers mean. */
    uint8_t level;
    uint8_t count;
};

/* The address and the rate of a device: the fields of a COMSET, and of the COM that confirms it. 8 bytes. */
struct osdp_communication {
    /* The rate, in bits per second. */
    uint32_t baud_rate;
    /* The address, 0 to 255. Devices have the addresses 0 to 126. */
    uint32_t address;
};

/* A message of the device's maker: the fields of a MFG or a MFGREP. 1,434 bytes. */
struct osdp_maker {
    /* How many bytes follow the maker's code, 0 to 1,429. */
    uint16_t length;
    /* The maker's code. */
    uint8_t vendor[3];
    uint8_t bytes[1429];
};

/* Why a command wasn't done: the fields of a NAK. 1,434 bytes. */
struct osdp_nak {
    /* How many bytes of detail follow the reason, 0 to 1,431. Mostly none. */
    uint16_t length;
    /* OSDP_NAK_CHECK_CHARACTERS to OSDP_NAK_RECORD_NOT_PROCESSED, or another number. */
    uint8_t reason;
    /* What else the device tells of the reason. */
    uint8_t detail[1431];
};

/* What one output is to do: one record of an OUT. 4 bytes. */
struct osdp_output {
    /* How long the operation lasts, in 100 ms, where `control` is for a time. */
    uint16_t timer;
    /* Which output of the device, counted from 0. */
    uint8_t output;
    /* What it is to do: OSDP_OUTPUT_NO_CHANGE to OSDP_OUTPUT_OFF_FOR_A_TIME. */
    uint8_t control;
};

/* How an LED blinks: it has one color for a time and then another, in turn. Colors are OSDP_COLOR_OFF to OSDP_COLOR_WHITE. 5 bytes. */
struct osdp_led_state {
    /* OSDP_LED_NOTHING; or, of the temporary state, OSDP_LED_CANCEL_TEMPORARY or OSDP_LED_SET_TEMPORARY; or, of the permanent state,
       OSDP_LED_SET_PERMANENT. */
    uint8_t control;
    /* How long the first color is on, and how long the second, in 100 ms. */
    uint8_t on_time;
    uint8_t off_time;
    /* The first color and the second. */
    uint8_t on_color;
    uint8_t off_color;
};

/* What one LED of a reader is to do: one record of a LED. 14 bytes. */
struct osdp_led {
    /* How long the temporary state lasts, in 100 ms. After that the permanent state is shown. */
    uint16_t timer;
    /* Which reader of the device, and which LED of it, both counted from 0. */
    uint8_t reader;
    uint8_t led;
    /* What the LED is to show for a time, and what it is to show for good. */
    struct osdp_led_state temporary;
    struct osdp_led_state permanent;
};

/* How the buzzer of a reader sounds: the fields of a BUZ. 5 bytes. */
struct osdp_buzzer {
    /* Which reader of the device, counted from 0. */
    uint8_t reader;
    /* OSDP_TONE_NONE to OSDP_TONE_DEFAULT. */
    uint8_t tone;
    /* How long it sounds, and how long it is silent after that, in 100 ms. */
    uint8_t on_time;
    uint8_t off_time;
    /* How often it sounds; 0 means until another command comes. */
    uint8_t count;
};

/* What the display of a reader shows: the fields of a TEXT. 261 bytes. */
struct osdp_text {
    /* Which reader of the device, counted from 0. */
    uint8_t reader;
    /* How the text is shown: OSDP_TEXT_PERMANENT to OSDP_TEXT_TEMPORARY_WRAPPED. */
    uint8_t command;
    /* For how many seconds a temporary text is shown. */
    uint8_t time;
    /* The row and the column of the first character, counted from 1. */
    uint8_t row;
    uint8_t column;
    /* How many characters there are, 0 to 255. */
    uint8_t count;
    uint8_t characters[255];
};

/*
 * Each reads the fields of one kind of reply, such as the `reply` of a report, and writes them to the struct.
 *
 * OSDP_OTHER_MESSAGE: it is a reply of another kind. OSDP_UNKNOWN_CODE (M1), OSDP_BAD_LENGTH (M2), OSDP_BAD_COUNT (M3): it is no reply. Nothing is written
 * in any of these cases. Where `present` is 0 the code is 0, which no reply has, so the call gives OSDP_UNKNOWN_CODE. The struct has no more than 1,432
 * bytes of data, so a `length` above that, which no call of the library writes, counts as 1,432.
 */
OSDP_CHECKED osdp_status osdp_raw_of(const struct osdp_message *reply, struct osdp_raw *raw);
OSDP_CHECKED osdp_status osdp_formatted_of(const struct osdp_message *reply, struct osdp_formatted *formatted);
OSDP_CHECKED osdp_status osdp_keypad_of(const struct osdp_message *reply, struct osdp_keypad *keypad);
OSDP_CHECKED osdp_status osdp_local_state_of(const struct osdp_message *reply, struct osdp_local_state *state);
OSDP_CHECKED osdp_status osdp_inputs_of(const struct osdp_message *reply, struct osdp_states *inputs);
OSDP_CHECKED osdp_status osdp_outputs_of(const struct osdp_message *reply, struct osdp_states *outputs);
OSDP_CHECKED osdp_status osdp_readers_of(const struct osdp_message *reply, struct osdp_states *readers);
OSDP_CHECKED osdp_status osdp_pd_id_of(const struct osdp_message *reply, struct osdp_pd_id *id);
OSDP_CHECKED osdp_status osdp_nak_of(const struct osdp_message *reply, struct osdp_nak *nak);
OSDP_CHECKED osdp_status osdp_com_of(const struct osdp_message *reply, struct osdp_communication *communication);
OSDP_CHECKED osdp_status osdp_maker_reply_of(const struct osdp_message *reply, struct osdp_maker *maker);

/*
 * Reads the record of a PDCAP at the place `at`, counted from 0. Call it for 0, 1, 2 and so on while it gives OSDP_OK.
 *
 * OSDP_OTHER_MESSAGE: it is a reply of another kind, or has no record at that place; nothing is written. The other refusals are those of the calls above.
 */
OSDP_CHECKED osdp_status osdp_capability_of(const struct osdp_message *reply, osdp_size at, struct osdp_capability *capability);

/*
 * Each reads the fields of one kind of command, such as the `command` of an answer, and writes them to the struct. OSDP_POLL to OSDP_RSTAT have no fields
 * for a program: their code alone tells what they ask for.
 *
 * OSDP_OTHER_MESSAGE: it is a command of another kind. OSDP_UNKNOWN_CODE (M1), OSDP_BAD_LENGTH (M2), OSDP_BAD_COUNT (M3): it is no command. Nothing is
 * written in any of these cases. Where `present` is 0 the code is 0, which no command has, so the call gives OSDP_UNKNOWN_CODE.
 */
OSDP_CHECKED osdp_status osdp_buzzer_of(const struct osdp_message *command, struct osdp_buzzer *buzzer);
OSDP_CHECKED osdp_status osdp_text_of(const struct osdp_message *command, struct osdp_text *text);
OSDP_CHECKED osdp_status osdp_comset_of(const struct osdp_message *command, struct osdp_communication *communication);
OSDP_CHECKED osdp_status osdp_maker_of(const struct osdp_message *command, struct osdp_maker *maker);

/*
 * Each reads the record of an OUT, or of a LED, at the place `at`, counted from 0. Call it for 0, 1, 2 and so on while it gives OSDP_OK.
 *
 * OSDP_OTHER_MESSAGE: it is a command of another kind, or has no record at that place; nothing is written. OSDP_UNKNOWN_CODE (M1), OSDP_BAD_LENGTH (M2),
 * OSDP_BAD_COUNT (M3): it is no command; nothing is written.
 */
OSDP_CHECKED osdp_status osdp_output_of(const struct osdp_message *command, osdp_size at, struct osdp_output *output);
OSDP_CHECKED osdp_status osdp_led_of(const struct osdp_message *command, osdp_size at, struct osdp_led *led);

/*
 * Each writes a command to `command`. Then `osdp_panel_submit(&panel, entry, command.code, command.data, command.length, until, &number)` orders it. `count` is how many
 * records there are: 1 to 358 of an OUT, 1 to 102 of a LED. ID and CAP carry one byte, which is 0: the standard has no other for it. Without that byte they
 * are no commands (OSDP_BAD_LENGTH). LSTAT, ISTAT, OSTAT and RSTAT carry nothing: `osdp_panel_submit(&panel, entry, OSDP_LSTAT, NULL, 0, until, &number)` orders one.
 *
 * OSDP_BAD_LENGTH (M2): there is no record, or more than 358 of an OUT or 102 of a LED, or the maker's bytes are more than 1,429; nothing is written.
 * OSDP_ADDRESS_OUT_OF_RANGE (B6): the address of a COMSET is above 126, and no device has such an address; nothing is written.
 */
void osdp_id(struct osdp_message *command);
void osdp_cap(struct osdp_message *command);
OSDP_CHECKED static inline osdp_status osdp_out(const struct osdp_output *outputs, osdp_size count, struct osdp_message *command);
OSDP_CHECKED static inline osdp_status osdp_led(const struct osdp_led *leds, osdp_size count, struct osdp_message *command);
void osdp_buzzer(const struct osdp_buzzer *buzzer, struct osdp_message *command);
void osdp_text(const struct osdp_text *text, struct osdp_message *command);
OSDP_CHECKED osdp_status osdp_comset(uint32_t address, uint32_t baud_rate, struct osdp_message *command);
OSDP_CHECKED osdp_status osdp_maker(const struct osdp_maker *maker, struct osdp_message *command);

/*
 * Each writes the reply that carries an event to `event`. Then `osdp_device_event(&device, event.code, event.data, event.length)` puts it after the events
 * that wait.
 *
 * OSDP_BAD_LENGTH (M2): `length` is more than the struct has room for; nothing is written. OSDP_BAD_COUNT (M3): the bytes of a card aren't as many as its
 * bits need (bits divided by 8, rounded up); nothing is written.
 */
OSDP_CHECKED osdp_status osdp_raw(const struct osdp_raw *raw, struct osdp_message *event);
void osdp_formatted(const struct osdp_formatted *formatted, struct osdp_message *event);
void osdp_keypad(const struct osdp_keypad *keypad, struct osdp_message *event);
void osdp_local_state(const struct osdp_local_state *state, struct osdp_message *event);
OSDP_CHECKED osdp_status osdp_inputs(const struct osdp_states *inputs, struct osdp_message *event);
OSDP_CHECKED osdp_status osdp_outputs(const struct osdp_states *outputs, struct osdp_message *event);
OSDP_CHECKED osdp_status osdp_readers(const struct osdp_states *readers, struct osdp_message *event);

/* ---- Numbers in the fields ---- */

/* What an output is to do: the control of a record of an OUT. */
enum {
    /* Nothing changes. */
    OSDP_OUTPUT_NO_CHANGE = 0,
    /* Off for good; a timed operation ends. */
    OSDP_OUTPUT_OFF = 1,
    /* On for good; a timed operation ends. */
    OSDP_OUTPUT_ON = 2,
    /* Off for good; a timed operation goes on to its end. */
    OSDP_OUTPUT_OFF_AFTER = 3,
    /* On for good; a timed operation goes on to its end. */
    OSDP_OUTPUT_ON_AFTER = 4,
    /* On for a time, and then as it was set for good. */
    OSDP_OUTPUT_ON_FOR_A_TIME = 5,
    /* Off for a time, and then as it was set for good. */
    OSDP_OUTPUT_OFF_FOR_A_TIME = 6
};

/* What becomes of a state of an LED: the `control` of its temporary state and of its permanent one. */
enum {
    /* The state stays as it is. */
    OSDP_LED_NOTHING = 0,
    /* Of the temporary state: it ends. */
    OSDP_LED_CANCEL_TEMPORARY = 1,
    /* Of the temporary state: it begins, and so does its timer. */
    OSDP_LED_SET_TEMPORARY = 2,
    /* Of the permanent state: it is set. */
    OSDP_LED_SET_PERMANENT = 1
};

/* The colors of an LED. */
enum {
    /* No light. */
    OSDP_COLOR_OFF = 0,
    /* Red. */
    OSDP_COLOR_RED = 1,
    /* Green. */
    OSDP_COLOR_GREEN = 2,
    /* Amber. */
    OSDP_COLOR_AMBER = 3,
    /* Blue. */
    OSDP_COLOR_BLUE = 4,
    /* Magenta. */
    OSDP_COLOR_MAGENTA = 5,
    /* Cyan. */
    OSDP_COLOR_CYAN = 6,
    /* White. */
    OSDP_COLOR_WHITE = 7
};

/* The tones of a buzzer. */
enum {
    /* No tone. */
    OSDP_TONE_NONE = 0,
    /* The buzzer is silent. */
    OSDP_TONE_OFF = 1,
    /* The tone that the reader has by itself. */
    OSDP_TONE_DEFAULT = 2
};

/* How a text is shown: the command of a TEXT. */
enum {
    /* For good, on one row. */
    OSDP_TEXT_PERMANENT = 1,
    /* For good, and it goes on in the next row. */
    OSDP_TEXT_PERMANENT_WRAPPED = 2,
    /* For a time, on one row. */
    OSDP_TEXT_TEMPORARY = 3,
    /* For a time, and it goes on in the next row. */
    OSDP_TEXT_TEMPORARY_WRAPPED = 4
};

/* The state of an input or an output, of the device's case and of its power: bytes of an ISTATR, an OSTATR and an LSTATR. */
enum {
    /* Of an input: it isn't active. Of an output: it is off. */
    OSDP_STATE_INACTIVE = 0,
    /* Of an input: it is active. Of an output: it is on. */
    OSDP_STATE_ACTIVE = 1,
    /* Of the case and of the power: all is well. */
    OSDP_STATE_NORMAL = 0,
    /* Of the case: the device is tampered with. */
    OSDP_STATE_TAMPERED = 1,
    /* Of the power: it fails. */
    OSDP_STATE_POWER_FAILS = 1
};

/* The state of a reader of the device: a byte of an RSTATR. */
enum {
    /* It works. */
    OSDP_READER_NORMAL = 0,
    /* It isn't connected. */
    OSDP_READER_NOT_CONNECTED = 1,
    /* It is tampered with. */
    OSDP_READER_TAMPERED = 2
};

/* How the bits of a card are to be understood, the `format` of a RAW; and how a card was drawn, the `direction` of a FMT. */
enum {
    /* Of a RAW: the format of the bits isn't told. */
    OSDP_CARD_RAW = 0,
    /* Of a RAW: a parity bit, data and a parity bit. */
    OSDP_CARD_WIEGAND = 1,
    /* Of a FMT: it was drawn forward. */
    OSDP_CARD_FORWARD = 0,
    /* Of a FMT: it was drawn backward. */
    OSDP_CARD_REVERSE = 1
};

/* What a capability is about: the `function` of a record of a PDCAP. */
enum {
    /* Inputs. */
    OSDP_FUNCTION_CONTACT_STATUS = 1,
    /* Outputs. */
    OSDP_FUNCTION_OUTPUT_CONTROL = 2,
    /* How cards are told. */
    OSDP_FUNCTION_CARD_DATA_FORMAT = 3,
    /* LEDs. */
    OSDP_FUNCTION_LED_CONTROL = 4,
    /* The buzzer. */
    OSDP_FUNCTION_AUDIBLE_OUTPUT = 5,
    /* The display. */
    OSDP_FUNCTION_TEXT_OUTPUT = 6,
    /* The clock. */
    OSDP_FUNCTION_TIME_KEEPING = 7,
    /* Whether the device takes packets that end with a CRC. */
    OSDP_FUNCTION_CHECK_CHARACTERS = 8,
    /* Secure Channel. */
    OSDP_FUNCTION_COMMUNICATION_SECURITY = 9,
    /* The longest packet that the device takes. */
    OSDP_FUNCTION_RECEIVE_BUFFER = 10,
    /* The longest message of several parts that the device takes. */
    OSDP_FUNCTION_LARGEST_MESSAGE = 11,
    /* Smart cards. */
    OSDP_FUNCTION_SMART_CARDS = 12,
    /* The readers of the device. */
    OSDP_FUNCTION_READERS = 13,
    /* Biometrics. */
    OSDP_FUNCTION_BIOMETRICS = 14,
    /* Secure PIN entry. */
    OSDP_FUNCTION_SECURE_PIN_ENTRY = 15,
    /* The version of OSDP. */
    OSDP_FUNCTION_VERSION = 16
};

/* ---- A panel: the controller's end of a line with up to sixteen devices ---- */

/*
 * A panel knows how old an order is. Each order of a device has a number, and a last moment, `until`: a packet of it goes out until then, and no later. Where that
 * moment passes while the order waits, a report tells that it has expired. Where it passes once the order was sent, it isn't sent again, and its answer is still
 * waited for. Between any two orders of a device a POLL is answered, so orders that come as fast as they go keep no card waiting.
 *
 * A turn of a panel's program:
 *
 *     static struct osdp_report report;
 *     static struct osdp_burst burst;
 *     .. waits for bytes, at most until osdp_panel_next_deadline; then takes the moment; then reads all that is there ..
 *     osdp_panel_bytes(&panel, bytes, length, now);
 *     while (osdp_panel_next_report(&panel, &report) == OSDP_OK && report.kind != OSDP_REPORT_NONE) {
 *         .. the program's own part: it looks at `detail` and `since` before it opens for a card ..
 *     }
 *     if (osdp_panel_tick(&panel, now, &sends) == OSDP_OK && sends) {
 *         .. takes the moment anew, into now ..
 *         if (osdp_panel_write(&panel, now, &burst) == OSDP_OK) {
 *             .. writes the burst, whole, where it has a length, and flushes it ..
 *         }
 *     }
 */

/* A panel's handle. All zeros is none: `osdp_panel panel = {0};`. The caller neither reads nor writes its words. 16 bytes. */
typedef struct osdp_panel {
    void *panel;
    osdp_size panel_live;
} osdp_panel;

enum {
    /* A checksum ends each packet, one byte. */
    OSDP_CHECK_SUM = 0,
    /* A CRC-16 ends each packet, two bytes. */
    OSDP_CHECK_CRC = 1
};

/* The settings of a panel. Times are in milliseconds, 1 to 3,600,000 where nothing else is said. 40 bytes. */
struct osdp_panel_config {
    /* Which check the packets of the panel end with: OSDP_CHECK_SUM or OSDP_CHECK_CRC. */
    uint32_t check;
    /* How long an answer is waited for, from the `osdp_panel_tick` that sent the packet. */
    uint32_t reply_wait;
    /* How long after an answer the next POLL of that device is due. */
    uint32_t poll_interval;
    /* How often a packet is sent, 1 to 255, the first time included, until the session is lost because no answer comes. After a BUSY it is counted anew. */
    uint32_t sends;
    /* How long after a BUSY the packet is sent again. */
    uint32_t busy_wait;
    /* How often a device may answer BUSY in one exchange, 0 to 255. One BUSY more loses the session. */
    uint32_t busy_limit;
    /* How long a device is left quiet before its session opens: more than twice the longest time that a packet takes until it is read. */
    uint32_t quiet_wait;
    /* After how long a silence a run of bytes is over: what was begun by then is no packet. */
    uint32_t gap;
    /* How many commands may wait for each device, 1 to 1,024. */
    uint32_t capacity;
    /* How far a moment may lie after the greatest one seen, in milliseconds; 0 stands for a day. Each number is allowed. */
    uint32_t clock_limit;
};

/*
 * Writes the default settings: `check` OSDP_CHECK_CRC, `reply_wait` 200, `poll_interval` 50, `sends` 3, `busy_wait` 50, `busy_limit` 20, `quiet_wait` 400,
 * `gap` 20, `capacity` 64, and `clock_limit` a day.
 */
void osdp_panel_defaults(struct osdp_panel_config *config);

/*
 * Makes a panel without devices, and puts it into the handle, which must be none. The settings are copied.
 *
 * OSDP_IN_USE: the handle holds a panel, which stays. OSDP_PANEL_OUT_OF_RANGE (B5): a setting is out of its range. OSDP_PANEL_NO_MEMORY (B1). In the last two
 * cases the handle stays none.
 */
OSDP_CHECKED osdp_status osdp_panel_new(osdp_panel *panel, const struct osdp_panel_config *config);

/*
 * As `osdp_panel_new`, with less memory: the commands that wait for one device may have `bytes` bytes together, 1 to 1,467,392. A command has as many bytes as
 * its packet without head and check, which are its code and its data: an OUT of one output has 5. (With `osdp_panel_new` each of `capacity` commands has room,
 * however long it is, up to 1,433 bytes.) A command without room is refused with OSDP_COMMANDS_FULL. The bytes of the command that is on its way count too,
 * unless there is room for each of `capacity` commands, however long it is. A site over the panel is made with the same `bytes` (osdp_site.h).
 *
 * The refusals are those of `osdp_panel_new`; OSDP_PANEL_OUT_OF_RANGE (B5) also where `bytes` is out of its range.
 */
OSDP_CHECKED osdp_status osdp_panel_new_with_room(osdp_panel *panel, const struct osdp_panel_config *config, osdp_size bytes);

/* Frees a panel and all that belongs to it. After that the handle is none. OSDP_NO_MACHINE. */
OSDP_CHECKED osdp_status osdp_panel_free(osdp_panel *panel);

/*
 * Adds a device at an address, 0 to 126. Its session is closed. Its number is written to `entry`: 0 to 15, in the order of adding. A device can't be taken
 * away again. One may be added while sessions of others go on, at an address that no other device has had since the panel was made.
 *
 * Its first order has the number `next_number`: 0 for a device that never had an order, and after a restart of the program the one that
 * `osdp_panel_next_number` told last.
 *
 * OSDP_NO_MACHINE. OSDP_TOO_MANY (B2): the panel has sixteen devices. OSDP_PANEL_OUT_OF_RANGE (B5): the address is above 126. OSDP_ADDRESS_TAKEN (B3):
 * it is that of another device or reserved for one. OSDP_PANEL_NO_MEMORY (B1). After a refusal `entry` stays as it was.
 */
OSDP_CHECKED osdp_status osdp_panel_add(osdp_panel *panel, uint32_t address, uint64_t next_number, osdp_size *entry);

/*
 * Begins a session of a device. The device is left quiet for `quiet_wait`, and then the opening ID goes out when its turn comes. A report says what becomes
 * of it: OSDP_REPORT_OPENED, or OSDP_REPORT_LOST. The panel begins no session by itself, also not after one was lost.
 *
 * OSDP_NO_MACHINE. OSDP_MOMENT_TOO_FAR. OSDP_NO_ENTRY (B4). OSDP_NOT_CLOSED (C5): the session has begun already.
 */
OSDP_CHECKED osdp_status osdp_panel_begin(osdp_panel *panel, osdp_size entry, uint64_t now);

/* The last moment of an order that is never too late. */
#define OSDP_NEVER UINT64_MAX

/*
 * Writes the number that the next order of a device has. The numbers of a device count up by one with each order that is accepted. A program that stores its
 * orders stores this number before it submits, and hands it to `osdp_panel_add` after a restart. OSDP_NO_MACHINE. OSDP_NO_ENTRY (B4).
 */
OSDP_CHECKED osdp_status osdp_panel_next_number(osdp_panel *panel, osdp_size entry, uint64_t *number);

/*
 * Puts a command after those that wait for a device, whether or not its session has begun, and writes the number of this order to `number`. It is copied:
 * `data` has `length` bytes. It goes out when its turn comes, also in a later session, but at no moment after `until`; with OSDP_NEVER it is never too late. Once
 * it was sent a report says what becomes of it: OSDP_REPORT_SETTLED, OSDP_REPORT_MOVED, OSDP_REPORT_UNREAD or OSDP_REPORT_LOST. Where `until` passes while it
 * waits, OSDP_REPORT_EXPIRED tells that as soon as it is in front, and it never goes out. Before, `osdp_panel_withdraw` takes it back. It is gone where the panel
 * is freed or loses power before.
 *
 * OSDP_NO_MACHINE. OSDP_UNKNOWN_CODE (M1), OSDP_BAD_LENGTH (M2), OSDP_BAD_COUNT (M3): the code and data are those of no command. OSDP_NO_ENTRY (B4).
 * OSDP_NUMBERS_USED_UP (B7). OSDP_POLL_SUBMITTED (C4): it is a POLL. OSDP_ADDRESS_OUT_OF_RANGE (B6): it is a COMSET to an address above 126, where the device
 * would be out of reach. OSDP_ADDRESS_TAKEN (B3): it is a COMSET to an address of another device or reserved for one, or an address is reserved for this device
 * already. OSDP_COMMANDS_FULL (C3). After a refusal `number` stays as it was.
 */
OSDP_CHECKED static inline osdp_status osdp_panel_submit(
    osdp_panel *panel, osdp_size entry, uint8_t code, const uint8_t *data, osdp_size length, uint64_t until, uint64_t *number);

/*
 * As `osdp_panel_submit`, for the text of a command, such as `OUT 0:5:30`. One or more spaces stand between two words, and spaces may stand at both ends. The
 * text ends after `length` bytes, and needs no zero; a line feed is no part of it.
 *
 * OSDP_NO_MACHINE. OSDP_BAD_TEXT: it is the text of no command. The others are those of `osdp_panel_submit`, without M1 to M3.
 */
OSDP_CHECKED static inline osdp_status osdp_panel_submit_text(
    osdp_panel *panel, osdp_size entry, const char *text, osdp_size length, uint64_t until, uint64_t *number);

/*
 * Takes back the command that has waited longest for a device, and writes it to `command`. It won't be sent, no report tells it, and an address that it
 * reserved is free. So it is also while a session goes on. Its number is the one that `osdp_panel_next_number` writes less what `osdp_panel_waiting` wrote
 * before. Where none waits, or where a command of the device is on its way, nothing is taken back, and `present` is 0. One is on its way from its first packet
 * until the report arises that says what became of it.
 *
 * OSDP_NO_MACHINE. OSDP_NO_ENTRY (B4). After a refusal `command` stays as it was.
 */
OSDP_CHECKED osdp_status osdp_panel_withdraw(osdp_panel *panel, osdp_size entry, struct osdp_message *command);

/*
 * Sets the address at which the panel looks for a device, 0 to 126, and frees the address that is reserved for it. The session must be closed. Nothing is sent:
 * the device itself stays where it is.
 *
 * OSDP_NO_MACHINE. OSDP_NO_ENTRY (B4). OSDP_NOT_CLOSED (C5): the session has begun. OSDP_PANEL_OUT_OF_RANGE (B5): the address is above 126.
 * OSDP_ADDRESS_TAKEN (B3): it is that of another device or reserved for one, or a COMSET waits for this device.
 */
OSDP_CHECKED osdp_status osdp_panel_retarget(osdp_panel *panel, osdp_size entry, uint32_t address);

/*
 * Hands in bytes that have come from the line, in any pieces. Each packet that they finish goes to the device of its address. A call with no bytes
 * moves the greatest moment seen, and changes nothing else. Take the reports that wait after it (`osdp_panel_next_report`).
 *
 * OSDP_NO_MACHINE. OSDP_MOMENT_TOO_FAR: no byte was taken.
 */
OSDP_CHECKED static inline osdp_status osdp_panel_bytes(osdp_panel *panel, const uint8_t *bytes, osdp_size length, uint64_t now);

/*
 * Says that the line was seen silent: the run of bytes is over, and what was begun is no packet. Only a program that sees silence by itself needs it, since
 * `osdp_panel_tick` and the next bytes end a run by `gap`. OSDP_NO_MACHINE. OSDP_MOMENT_TOO_FAR.
 */
OSDP_CHECKED osdp_status osdp_panel_silence(osdp_panel *panel, uint64_t now);

/*
 * Does what is due at a moment, and writes to `sends` whether a burst is to go out: 1 or 0. Where it is 1, take the moment anew, and the burst by `osdp_panel_write`,
 * before any other call: a burst that isn't taken before the next tick is lost on the line. None is to go out while a report waits, nor in a turn in which
 * `osdp_panel_bytes` brought a report; then the next tick is due at once. A tick may also leave a report, which the next turn takes.
 *
 * OSDP_NO_MACHINE. OSDP_MOMENT_TOO_FAR. After a refusal `sends` stays as it was.
 */
OSDP_CHECKED osdp_status osdp_panel_tick(osdp_panel *panel, uint64_t now, uint32_t *sends);

/*
 * Writes the burst of the last tick, which goes out at this moment, taken just before: write it to the line whole before the next call. Its `length` is 0 where none
 * is to go out, and where it is too late: then the last moment of its order has passed. For the panel such a packet is lost on the line. So what becomes of the
 * order is in doubt, and `too_late` of the report with which its session is lost tells why. Each burst is written once.
 *
 * OSDP_NO_MACHINE. OSDP_MOMENT_TOO_FAR: nothing is written, and the burst is still to go out. After `osdp_panel_set_moment` it may be asked for again.
 */
OSDP_CHECKED osdp_status osdp_panel_write(osdp_panel *panel, uint64_t now, struct osdp_burst *burst);

/*
 * Sets the greatest moment seen, however far it lies after the one before: for a host that slept, after OSDP_MOMENT_TOO_FAR. One that lies before the greatest
 * changes nothing.
 *
 * OSDP_NO_MACHINE.
 */
OSDP_CHECKED osdp_status osdp_panel_set_moment(osdp_panel *panel, uint64_t now);

/* A moment, where there is one. 16 bytes. */
struct osdp_moment {
    /* The moment, in milliseconds. */
    uint64_t moment;
    /* 1 where there is one, else 0. Where it is 0, `moment` is 0 too. */
    uint64_t present;
} OSDP_ALIGNED;

/*
 * Writes the moment of the next turn, if no bytes come before. A tick at that moment or later sends, leaves a report, tells that an order has expired, or ends a
 * run of bytes, and an earlier one does none of these. It may lie in the past: then take a turn at once. So it is while a report waits, and after a turn in which
 * bytes brought a report. There is none (`present` is 0) where no turn would do anything before bytes or another call come.
 *
 * OSDP_NO_MACHINE.
 */
OSDP_CHECKED osdp_status osdp_panel_next_deadline(osdp_panel *panel, struct osdp_moment *deadline);

/* What a report tells: the `kind` of it. docs/GUIDE.md says what a panel does with each. */
enum {
    /* No report waits. */
    OSDP_REPORT_NONE = 0,
    /* The session is open. `reply` is the PDID, which says what the device is. */
    OSDP_REPORT_OPENED = 1,
    /* The order `command` was answered by `reply`. Look at it: it may be a NAK, and then nothing was done. */
    OSDP_REPORT_SETTLED = 2,
    /* The order `command`, a COMSET, was answered by `reply`, a COM with the same address. The device is at its new address, and the session has ended: begin it again.
       The device's rate is that of the COM, which may be another than was ordered: `osdp_com_of` reads it. */
    OSDP_REPORT_MOVED = 3,
    /* The device told an event, which `reply` carries. `detail` is OSDP_EVENT_MAYBE_AGAIN where it may have been reported before, else 0. `since` tells its age. */
    OSDP_REPORT_EVENT = 4,
    /* A POLL was answered by `reply`, which is neither an ACK nor an event, such as a NAK. */
    OSDP_REPORT_ANSWERED = 5,
    /* The answer to `command`, or to a POLL where no command is there, can't be read. `detail` is the code of the answer. What became of `command` is unknown,
       and it isn't sent again. The session goes on. An address that a COMSET reserved stays reserved until `osdp_panel_retarget`. */
    OSDP_REPORT_UNREAD = 6,
    /* The session has ended; `detail` says why: OSDP_LOST_NO_REPLY to OSDP_LOST_NUMBER_REFUSED. What became of `command`, if there is one, is unknown, and it
       isn't sent again. If it is a COMSET, its address stays reserved until `osdp_panel_retarget`. The commands that wait go out in the next session, those whose
       last moment hasn't passed by then. */
    OSDP_REPORT_LOST = 7,
    /* The last moment of the order `command` passed while it waited: it never went out, and never will. An address that it reserved is free once this is taken. */
    OSDP_REPORT_EXPIRED = 8
};

/* Why a session was lost: the `detail` of OSDP_REPORT_LOST. */
enum {
    /* The packet was sent as often as `sends` says, and no reply came that answers it. */
    OSDP_LOST_NO_REPLY = 1,
    /* The device answered BUSY more often than `busy_limit` allows. */
    OSDP_LOST_TOO_BUSY = 2,
    /* The device answered NAK 4: it didn't expect the sequence number. Mostly it has restarted. */
    OSDP_LOST_NUMBER_REFUSED = 3
};

/*
 * The `detail` of an event that may have been reported before: it is the first of its session, and equal in all its bytes to the event of that device that was
 * reported last. A lost session may lose the answer that carries an event, and the device sends the event again then. Make no second order of such an event
 * within a time that you set. A panel that is made anew has forgotten what it reported, and marks no first event.
 */
enum {
    OSDP_EVENT_MAYBE_AGAIN = 1
};

/* A report. 2,912 bytes. */
struct osdp_report {
    /* The number of the device of which it tells. 0 where no report waits. */
    osdp_size entry;
    /* Where `numbered` is 1: the number of the order of which it tells, which `osdp_panel_submit` wrote. Else 0. */
    uint64_t number;
    /* Of an event: the moment at which the POLL was first sent that it answers, so the device offered it no earlier in this session. A card that was read longer
       ago than a setting opens no door. 0 of all others. */
    uint64_t since;
    /* OSDP_REPORT_NONE to OSDP_REPORT_EXPIRED. */
    uint32_t kind;
    /* As the kind says: of OSDP_REPORT_EVENT, OSDP_REPORT_UNREAD and OSDP_REPORT_LOST. Else 0. */
    uint32_t detail;
    /* 1 where it tells of an order, else 0. `command` is that order then. */
    uint32_t numbered;
    /* 1 where a session was lost with an order that wasn't sent again since its last moment had passed, else 0. What became of that order is unknown. */
    uint32_t too_late;
    /* The command and the reply that the kind names. Else none: `present` is 0. */
    struct osdp_message command;
    struct osdp_message reply;
};

/* Writes how many devices the panel has, 0 to 16. OSDP_NO_MACHINE. */
OSDP_CHECKED osdp_status osdp_panel_entries(osdp_panel *panel, osdp_size *count);

/* Writes the address that a device has now. OSDP_NO_MACHINE. OSDP_NO_ENTRY (B4). */
OSDP_CHECKED osdp_status osdp_panel_address(osdp_panel *panel, osdp_size entry, uint32_t *address);

/* Writes how many commands wait for a device. The one that is on its way isn't counted. OSDP_NO_MACHINE. OSDP_NO_ENTRY (B4). */
OSDP_CHECKED osdp_status osdp_panel_waiting(osdp_panel *panel, osdp_size entry, osdp_size *count);

/*
 * Writes whether the session of a device is closed: 1 or 0. It is closed until `osdp_panel_begin`, and again once it is lost or the device has moved.
 * OSDP_NO_MACHINE. OSDP_NO_ENTRY (B4).
 */
OSDP_CHECKED osdp_status osdp_panel_is_closed(osdp_panel *panel, osdp_size entry, uint32_t *closed);

/*
 * Takes what is to be told, and writes it; its `kind` is OSDP_REPORT_NONE where there is nothing. Call it after `osdp_panel_bytes` and `osdp_panel_silence` until
 * there is nothing: at most one report of the line waits, and one for each order that has expired. While one waits, the panel sends nothing. OSDP_NO_MACHINE.
 */
OSDP_CHECKED osdp_status osdp_panel_next_report(osdp_panel *panel, struct osdp_report *report);

/* ---- A device: the other end of the line, such as a card reader ---- */

/* A device's handle. All zeros is none: `osdp_device device = {0};`. The caller neither reads nor writes its words. 16 bytes. */
typedef struct osdp_device {
    void *device;
    osdp_size device_live;
} osdp_device;

/* The settings of a device, and what it is. 28 bytes. */
struct osdp_device_config {
    /* The address on the line, 0 to 126. After a restart hand in the one where the device was last (`moved` of an answer). */
    uint32_t address;
    /* How many events may wait, 1 to 1,024. */
    uint32_t capacity;
    /* After how many milliseconds of silence a run of bytes is over, 1 to 3,600,000. What was begun by then is no packet. */
    uint32_t gap;
    /* The serial number, which the device answers to ID. */
    uint32_t serial;
    /* How many milliseconds a moment may lie after the greatest one seen; 0 stands for a day. Each number is allowed. */
    uint32_t clock_limit;
    /* What else the device answers to ID. */
    struct osdp_product product;
};

/*
 * Makes a device to which nothing has come, and puts it into the handle, which must be none. The settings and the capabilities are copied.
 *
 * `capabilities` is what the device answers to CAP. Each has three bytes, those of a `struct osdp_capability`, so an array of these may be given as bytes.
 * `length` is how many bytes there are. At first the device has no inputs, outputs and readers, no tamper and no failure of power.
 *
 * The device answers POLL, ID, CAP and COMSET by itself, a COMSET at whatever rate (see `moved`). Before each other command `osdp_device_step` stops, and the
 * program may set the answer (`osdp_device_answer_done` and the others). Where it sets none, LSTAT, ISTAT, OSTAT and RSTAT are answered by the states that
 * are set below. LED, BUZ and TEXT are answered ACK, and so is an OUT whose outputs are all there, whatever its controls are. Any other OUT is answered NAK
 * 9, and so is each MFG.
 *
 * OSDP_IN_USE: the handle holds a device, which stays. OSDP_BAD_LENGTH (M2): the capabilities have more than 1,432 bytes, or a number that isn't a
 * multiple of three. OSDP_DEVICE_OUT_OF_RANGE (N3): the address, the capacity or the gap is out of its range. OSDP_DEVICE_NO_MEMORY (N1). In the last
 * three cases the handle stays none.
 */
OSDP_CHECKED static inline osdp_status osdp_device_new(
    osdp_device *device, const struct osdp_device_config *config, const uint8_t *capabilities, osdp_size length);

/*
 * As `osdp_device_new`, with less memory: the events that wait may have `bytes` bytes together, 1 to 1,467,392. An event has as many bytes as the code and the
 * data of the reply that carries it: a card of 26 bits has 9. (With `osdp_device_new` each of `capacity` events has room, however long it is, up to 1,433
 * bytes.) An event without room is refused with OSDP_EVENTS_FULL.
 *
 * The refusals are those of `osdp_device_new`; OSDP_DEVICE_OUT_OF_RANGE (N3) also where `bytes` is out of its range.
 */
OSDP_CHECKED static inline osdp_status osdp_device_new_with_room(
    osdp_device *device, const struct osdp_device_config *config, const uint8_t *capabilities, osdp_size length, osdp_size bytes);

/* Frees a device and all that belongs to it. After that the handle is none. OSDP_NO_MACHINE. */
OSDP_CHECKED osdp_status osdp_device_free(osdp_device *device);

/*
 * Set what ISTAT, OSTAT and RSTAT are answered from now on, where the program sets no other answer. The states have one byte each, `length` of them: for each
 * input 1 where it is active, for each output 1 where it is on, for each reader 0 where it works. An OUT to an output that isn't there is refused. None of the
 * calls tells the panel anything: for that, put an event (`osdp_inputs`). A repeat still has the answer that was given.
 *
 * OSDP_NO_MACHINE. OSDP_BAD_LENGTH (M2): there are more than 1,432.
 */
OSDP_CHECKED static inline osdp_status osdp_device_set_inputs(osdp_device *device, const uint8_t *states, osdp_size length);
OSDP_CHECKED static inline osdp_status osdp_device_set_outputs(osdp_device *device, const uint8_t *states, osdp_size length);
OSDP_CHECKED static inline osdp_status osdp_device_set_readers(osdp_device *device, const uint8_t *states, osdp_size length);

/*
 * Sets what LSTAT is answered from now on: `tamper` is OSDP_STATE_TAMPERED where the device is tampered with, `power` is OSDP_STATE_POWER_FAILS where its power
 * fails; else each is OSDP_STATE_NORMAL. OSDP_NO_MACHINE.
 */
OSDP_CHECKED osdp_status osdp_device_set_local(osdp_device *device, uint8_t tamper, uint8_t power);

/*
 * Sets whether the device is busy: 0 for no, any other number for yes. A busy device answers BUSY to new commands and takes none of them. To a repeat it still
 * gives the answer that was given. OSDP_NO_MACHINE.
 */
OSDP_CHECKED osdp_status osdp_device_set_busy(osdp_device *device, uint32_t busy);

/*
 * Puts an event after those that wait: it goes out in the answer to a POLL. `code` and `data`, of `length` bytes, are those of the reply that carries it:
 * LSTATR, ISTATR, OSTATR, RSTATR, RAW, FMT or KEYPAD. The event is copied. Its age counts from the greatest moment that any call has handed in. An event
 * that is put before any moment was handed in is never too old.
 *
 * OSDP_NO_MACHINE. OSDP_UNKNOWN_CODE (M1), OSDP_BAD_LENGTH (M2), OSDP_BAD_COUNT (M3): the code and data are those of no reply. OSDP_NO_EVENT: the reply
 * carries no event. OSDP_EVENTS_FULL (N2): the event isn't told.
 */
OSDP_CHECKED static inline osdp_status osdp_device_event(osdp_device *device, uint8_t code, const uint8_t *data, osdp_size length);

/*
 * As `osdp_device_event`, for the text of an event, such as `KEYPAD 0 31`. One or more spaces stand between two words. The text ends after `length` bytes, and
 * needs no zero.
 *
 * OSDP_NO_MACHINE. OSDP_BAD_TEXT: it is the text of no event. OSDP_EVENTS_FULL (N2).
 */
OSDP_CHECKED static inline osdp_status osdp_device_event_text(osdp_device *device, const char *text, osdp_size length);

/* Writes the address that the device has now. OSDP_NO_MACHINE. */
OSDP_CHECKED osdp_status osdp_device_address(osdp_device *device, uint32_t *address);

/* Writes how many events wait. One that went out, and of which the device doesn't know yet whether it came, is counted. OSDP_NO_MACHINE. */
OSDP_CHECKED osdp_status osdp_device_waiting(osdp_device *device, osdp_size *count);

/*
 * Writes whether the session of the device is closed: 1 where it refuses each number but 0, as a device does that is new or has moved to another address,
 * else 0. OSDP_NO_MACHINE.
 */
OSDP_CHECKED osdp_status osdp_device_is_closed(osdp_device *device, uint32_t *closed);

/*
 * Writes whether no panel is there at a moment: 1 where the device has answered no packet for 8,000 ms, or none ever, else 0. It answers each command to its
 * own address or to the configuration address that comes whole and undamaged. OSDP_NO_MACHINE. OSDP_MOMENT_TOO_FAR.
 */
OSDP_CHECKED osdp_status osdp_device_is_offline(osdp_device *device, uint64_t now, uint32_t *offline);

/* What became of an event that was too old. */
enum {
    /* No event was taken off. */
    OSDP_EXPIRED_NONE = 0,
    /* The event was never offered: no answer has carried it, and none will. */
    OSDP_EXPIRED_WITHDRAWN = 1,
    /* The event was offered, and that answer may be lost: the panel may have it or not. */
    OSDP_EXPIRED_IN_DOUBT = 2
};

/*
 * Takes the oldest event off where two things hold: no panel is there at the moment `now` (`osdp_device_is_offline`), and the event has waited for more than
 * `limit` milliseconds. What became of it is written to `expired`, and the event to `event`, as the reply that would have carried it. A limit of 0 takes none
 * off. Where none is taken off, `expired` is OSDP_EXPIRED_NONE and `present` is 0. Call it in each turn before bytes are handed in, until it writes
 * OSDP_EXPIRED_NONE: so no card of long ago opens a door.
 *
 *     while (osdp_device_expire_event(&device, now, 30000, &expired, &event) == OSDP_OK && expired != OSDP_EXPIRED_NONE) {
 *         .. no later session tells this event ..
 *     }
 *
 * OSDP_NO_MACHINE. OSDP_MOMENT_TOO_FAR: nothing has changed, and nothing is written.
 */
OSDP_CHECKED osdp_status osdp_device_expire_event(
    osdp_device *device, uint64_t now, uint64_t limit, uint32_t *expired, struct osdp_message *event);

/*
 * Takes back the oldest event that was never offered, in this session or in one before: no answer has carried it, and none will. It is written to `event` as
 * the reply that would have carried it. Where there is no such event, `present` is 0. OSDP_NO_MACHINE.
 */
OSDP_CHECKED osdp_status osdp_device_withdraw_event(osdp_device *device, struct osdp_message *event);

/*
 * Lets the oldest event go if it was ever offered, in this session or in one before, and writes it to `event`. The answer that carried it may be lost, so the
 * panel may have it or not. A repeat within this session may still tell it. If it was never offered, `present` is 0 and nothing changes. OSDP_NO_MACHINE.
 */
OSDP_CHECKED osdp_status osdp_device_lapse_event(osdp_device *device, struct osdp_message *event);

/* How a packet was answered: the `kind` of an answer. */
enum {
    /* Nothing is said, and no packet is left that the device would answer. */
    OSDP_SAID_NONE = 0,
    /* NAK 5: the packet has a security block, which isn't supported. Nothing was taken. */
    OSDP_SAID_SECURED = 1,
    /* A packet with number 0, which begins a session anew. Its command was acted on, or answered NAK where it can't be read. */
    OSDP_SAID_ZERO = 2,
    /* A packet with the number of the last one: the answer that was given goes out once more. Nothing was acted on. */
    OSDP_SAID_REPEAT = 3,
    /* A packet with the next number. Its command was acted on, once, or answered NAK where it can't be read. */
    OSDP_SAID_TAKEN = 4,
    /* BUSY: the device is busy, and nothing was taken. */
    OSDP_SAID_BUSY = 5,
    /* NAK 4: the number isn't expected. Nothing was taken. */
    OSDP_SAID_WRONG = 6,
    /* Nothing is said yet: the device has stopped before the command. The next call of `osdp_device_step`, `_tick` or `_silence` answers it. */
    OSDP_SAID_PENDING = 7
};

/* What the device is to do with the `command` of an answer: the `order` of it. Of ID, CAP and the commands that ask for states there is nothing to do. */
enum {
    /* Nothing: it is a POLL, a repeat, a command that can't be read, a packet that wasn't taken, or none. */
    OSDP_ORDER_NONE = 0,
    /* The command came with the next number, and was not refused: do it. A repeat of it is never told as an order. */
    OSDP_ORDER_ONCE = 1,
    /* The command came with number 0, with which the same order may come again, and was not refused: do only what may be done twice. */
    OSDP_ORDER_AGAIN = 2,
    /* The command came with the next number or with 0, and the device has refused it: the burst is a NAK. Do nothing of it. */
    OSDP_ORDER_REFUSED = 3,
    /* Not yet: the program may set the answer to the command now, and the next call that answers gives it. Do nothing of it before. */
    OSDP_ORDER_PENDING = 4
};

/* What a device says to a packet, or before which command it has stopped. 2,900 bytes. */
struct osdp_answer {
    /* OSDP_SAID_NONE to OSDP_SAID_PENDING. */
    uint32_t kind;
    /* OSDP_ORDER_NONE to OSDP_ORDER_PENDING. */
    uint32_t order;
    /*
     * 1 where a COMSET was accepted, else 0. Before the program writes the burst it keeps the address and the rate in memory that stays, since a device that
     * restarts is to be where it was. It writes the burst at the old rate, and then sets the port to the new one.
     *
     * Where the port hasn't that rate, the program doesn't write the burst, since no panel would find the device at that rate. It frees the device and makes it
     * anew at the address where it was, as after a loss of power: its panel loses the session, and finds it there.
     */
    uint32_t moved;
    /* The address and the rate, in bits per second, that the COMSET set; else 0. */
    uint32_t address;
    uint32_t baud_rate;
    /* The command that `order` is about. Where that is OSDP_ORDER_NONE there is none: `present` is 0. */
    struct osdp_message command;
    /* What is to be written to the line. Its `length` is 0 where nothing is said, and while a command is pending. */
    struct osdp_burst burst;
};

/*
 * Hands in bytes that have come up to the moment `now`. The device takes as many of them as it has room for, and how many is written to `taken`; that may be 0.
 * Then it reads the packets that are whole, in their order, up to and including the first that it answers, and what it says is written to `answer`. Before a
 * command that it doesn't answer by itself it stops once: `kind` is OSDP_SAID_PENDING, and the next call of `osdp_device_step`, `osdp_device_tick` or
 * `osdp_device_silence` answers it.
 *
 * Call it again at the same moment with the bytes that weren't taken, until all are taken and nothing is said; then `length` is 0 in the last calls. A call
 * with no bytes ends no run: call `osdp_device_tick` after these calls in each turn, also where a read gave no bytes.
 *
 *     osdp_size at = 0, taken;
 *     while (osdp_device_step(&device, bytes + at, length - at, now, &taken, &answer) == OSDP_OK) {
 *         at += taken;
 *         if (answer.order == OSDP_ORDER_PENDING && .. the lock is jammed ..) {
 *             osdp_device_answer_refused(&device, OSDP_NAK_RECORD_NOT_PROCESSED);
 *         }
 *         if (answer.order == OSDP_ORDER_ONCE) {
 *             .. do answer.command before the burst is written: so what was answered was done ..
 *         }
 *         if (answer.moved) {
 *             .. keep answer.address and answer.baud_rate ..
 *         }
 *         .. write answer.burst, and then change to the new rate where the device has moved ..
 *         if (at == length && answer.kind == OSDP_SAID_NONE) {
 *             break;
 *         }
 *     }
 *
 * OSDP_NO_MACHINE. OSDP_MOMENT_TOO_FAR: no byte was taken, and nothing is written.
 */
OSDP_CHECKED static inline osdp_status osdp_device_step(
    osdp_device *device, const uint8_t *bytes, osdp_size length, uint64_t now, osdp_size *taken, struct osdp_answer *answer);

/*
 * Says that no more bytes have come up to the moment `now`. Where the line was silent for the gap after a run, that run is over, and what was begun is no
 * packet. What the device says is written to `answer`, as by `osdp_device_step`. Where it says something, call `osdp_device_step` with no bytes until it says
 * nothing.
 *
 * OSDP_NO_MACHINE. OSDP_MOMENT_TOO_FAR: nothing is written.
 */
OSDP_CHECKED osdp_status osdp_device_tick(osdp_device *device, uint64_t now, struct osdp_answer *answer);

/* Says that the line was seen silent: the run is over, whatever the gap. Else it is as `osdp_device_tick`. OSDP_NO_MACHINE. OSDP_MOMENT_TOO_FAR. */
OSDP_CHECKED osdp_status osdp_device_silence(osdp_device *device, uint64_t now, struct osdp_answer *answer);

/* Sets the greatest moment seen, however far it lies after the one before, as `osdp_panel_set_moment` does. OSDP_NO_MACHINE. */
OSDP_CHECKED osdp_status osdp_device_set_moment(osdp_device *device, uint64_t now);

/*
 * Writes the command that the next packet will have acted on, where the device doesn't answer it by itself. There is none (`present` is 0) where no such
 * command came, and while the device is busy. It is the command before which `osdp_device_step` stops. Nothing is answered by this call.
 *
 * OSDP_NO_MACHINE.
 */
OSDP_CHECKED osdp_status osdp_device_pending(osdp_device *device, struct osdp_message *command);

/*
 * Each sets the answer to the command before which the device has stopped, in place of an answer that was set before. The next call of `osdp_device_step`,
 * `osdp_device_tick` or `osdp_device_silence` gives that answer: once, to that command and no other. It is gone with that packet, also where the packet is
 * answered BUSY. An answer that doesn't belong to the command goes out as NAK 9.
 *
 * `done` is an ACK, for OUT, LED, BUZ, TEXT and MFG. `local` is for LSTAT, with the bytes of `osdp_device_set_local`. `list` is for ISTAT, OSTAT and RSTAT: a
 * byte for each input, output or reader, `length` of them, 1,432 at most. `refused` is a NAK for each command: the reasons 2, 3 and 9 go out as they are, all
 * others as 9. `maker` is for MFG: `vendor` is the three bytes of the maker's code, and `bytes` the maker's own bytes, `length` of them, 1,429 at most.
 *
 * OSDP_NO_MACHINE. OSDP_NOT_ASKED: no call has stopped before a command since the last answer. OSDP_BAD_LENGTH (M2): the list or the bytes are too long.
 */
OSDP_CHECKED osdp_status osdp_device_answer_done(osdp_device *device);
OSDP_CHECKED osdp_status osdp_device_answer_local(osdp_device *device, uint8_t tamper, uint8_t power);
OSDP_CHECKED static inline osdp_status osdp_device_answer_list(osdp_device *device, const uint8_t *states, osdp_size length);
OSDP_CHECKED osdp_status osdp_device_answer_refused(osdp_device *device, uint8_t reason);
OSDP_CHECKED static inline osdp_status osdp_device_answer_maker(osdp_device *device, const uint8_t *vendor, const uint8_t *bytes, osdp_size length);

/* ---- A monitor: what happens on a line, and which end breaks its rules ---- */

/*
 * A monitor listens to one line, and speaks on none. What it finds it tells in lines of text, which are those of the program `osdp monitor`: the manual page of
 * that program says what each means. A monitor may begin to listen at any moment: what it hasn't heard it doesn't judge.
 *
 *     char text[256];
 *     osdp_size count;
 *     status = .. bytes have come .. ? osdp_monitor_bytes(&monitor, bytes, length) : .. none for the gap .. ? osdp_monitor_silence(&monitor) : OSDP_OK;
 *     while (osdp_monitor_next_text(&monitor, text, sizeof text, &count) == OSDP_OK && count != 0) {
 *         fwrite(text, 1, count, stdout);
 *     }
 */

/* A monitor's handle. All zeros is none: `osdp_monitor monitor = {0};`. The caller neither reads nor writes its words. 16 bytes. */
typedef struct osdp_monitor {
    void *monitor;
    osdp_size monitor_live;
} osdp_monitor;

/* What has a line of text. With each number, each accusation, each notice and each refused byte has one. */
enum {
    /* Nothing else has one. */
    OSDP_PRINTS_FOUND = 0,
    /* So has each packet and each skipped byte, but no POLL, and no ACK that answers a POLL. */
    OSDP_PRINTS_TALK = 1,
    /* So has each packet and each skipped byte. */
    OSDP_PRINTS_PACKETS = 2
};

/*
 * Makes a monitor of a line of which nothing was heard, and puts it into the handle, which must be none. `prints` is OSDP_PRINTS_FOUND to
 * OSDP_PRINTS_PACKETS. Where `standard` is 0 it makes all accusations. With any other number it leaves out those that the standard doesn't ask
 * for, since other makers may do otherwise.
 *
 * OSDP_IN_USE: the handle holds a monitor, which stays. OSDP_MONITOR_OUT_OF_RANGE (L3): `prints` is another number. OSDP_MONITOR_NO_MEMORY (L1). In the last
 * two cases the handle stays none.
 */
OSDP_CHECKED osdp_status osdp_monitor_new(osdp_monitor *monitor, uint32_t prints, uint32_t standard);

/* Frees a monitor and all that belongs to it. After that the handle is none. OSDP_NO_MACHINE. */
OSDP_CHECKED osdp_status osdp_monitor_free(osdp_monitor *monitor);

/*
 * Hands in bytes that have come on the line, in any pieces. What is told of the packets that they finish comes after the text that waits.
 *
 * The call takes memory: a block for each address at the first packet to it, and the text. Where there is none the monitor stops. The text that waited is gone
 * then, and each later call but `osdp_monitor_next_text`, which gives no text, and `osdp_monitor_free` is refused with OSDP_MONITOR_STOPPED. Free the monitor,
 * and make another one.
 *
 * OSDP_NO_MACHINE. OSDP_MONITOR_NO_MEMORY (L1), OSDP_MONITOR_TOO_LONG (L2): the monitor has stopped. OSDP_MONITOR_STOPPED (L4): it had stopped before.
 */
OSDP_CHECKED static inline osdp_status osdp_monitor_bytes(osdp_monitor *monitor, const uint8_t *bytes, osdp_size length);

/*
 * Says that the line was silent for the gap, such as 20 ms: the run of bytes is over, and what was begun is no packet. A monitor has no clock, so its program
 * tells it. Call it once after bytes, since lines of text count the runs. It takes memory, and its refusals are those of `osdp_monitor_bytes`.
 */
OSDP_CHECKED osdp_status osdp_monitor_silence(osdp_monitor *monitor);

/*
 * Puts the table of what was heard of each address after the text that waits, and what is amiss by that table. It takes memory, and its refusals are those of
 * `osdp_monitor_bytes`.
 */
OSDP_CHECKED osdp_status osdp_monitor_table(osdp_monitor *monitor);

/*
 * Takes the next of the text that waits: `room` bytes, or all where they are fewer. They are written to `text`, and how many they are to `text_length`. A zero
 * comes after them where there is room for one more byte. What had no room waits for the next call, so a line of text may be cut in two. Where 0 bytes are
 * written, none waits.
 *
 * OSDP_NO_MACHINE.
 */
OSDP_CHECKED static inline osdp_status osdp_monitor_next_text(osdp_monitor *monitor, char *text, osdp_size room, osdp_size *text_length);

/*
 * Writes whether anything was wrong so far: 1 where an end was accused, something was refused, or packets came of which none could be judged,
 * else 0. `osdp monitor` ends with this number.
 *
 * OSDP_NO_MACHINE. OSDP_MONITOR_STOPPED (L4).
 */
OSDP_CHECKED osdp_status osdp_monitor_is_wrong(osdp_monitor *monitor, uint32_t *wrong);

/* ---- What the archive needs from outside ---- */

/* A block of memory, where `ok` is true. Where it is false there is none, and `block` is the address of some byte, and not null. */
struct osdp_block {
    bool ok;
    void *block;
};

/*
 * The heap, which the program supplies. c/heap_malloc.c has one over malloc, and c/heap_pool.c one over a fixed pool. libosdp.a has the one over malloc; a heap
 * of the program's own takes its place. The toolchain has chosen the names. A shared library that has one of these heaps hands its names on to no other one.
 *
 * `rattle_alloc` gives a block of `size` bytes at a multiple of `align`, which is a power of two up to 16; or `ok` is false. `rattle_realloc` gives a block the
 * size of `size` bytes. Its first `kept` bytes are as they were, and it may move. Where its `ok` is false the block is as it was. Only the calls of a monitor
 * use `rattle_realloc`. `rattle_dealloc` takes back a block that the two others gave.
 */
struct osdp_block rattle_alloc(size_t size, size_t align);
struct osdp_block rattle_realloc(void *block, size_t kept, size_t size, size_t align);
void rattle_dealloc(void *block);

/* ---- Null pointers for no bytes ---- */

/*
 * The functions of the archive take no null pointer. The functions above that may get one, where there are no bytes, are defined here. Where the length is 0
 * they hand on a pointer to some byte in place of a null pointer, and nothing of that byte is read or written. With another length they refuse a null pointer
 * with OSDP_BAD_LENGTH, and don't call the archive.
 */
OSDP_CHECKED osdp_status osdp_command_text_nonnull(uint8_t code, const uint8_t *data, osdp_size length, char *text, osdp_size room, osdp_size *text_length);
OSDP_CHECKED osdp_status osdp_reply_text_nonnull(uint8_t code, const uint8_t *data, osdp_size length, char *text, osdp_size room, osdp_size *text_length);
OSDP_CHECKED osdp_status osdp_out_nonnull(const struct osdp_output *outputs, osdp_size count, struct osdp_message *command);
OSDP_CHECKED osdp_status osdp_led_nonnull(const struct osdp_led *leds, osdp_size count, struct osdp_message *command);
OSDP_CHECKED osdp_status osdp_panel_submit_nonnull(
    osdp_panel *panel, osdp_size entry, uint8_t code, const uint8_t *data, osdp_size length, uint64_t until, uint64_t *number);
OSDP_CHECKED osdp_status osdp_panel_submit_text_nonnull(
    osdp_panel *panel, osdp_size entry, const char *text, osdp_size length, uint64_t until, uint64_t *number);
OSDP_CHECKED osdp_status osdp_panel_bytes_nonnull(osdp_panel *panel, const uint8_t *bytes, osdp_size length, uint64_t now);
OSDP_CHECKED osdp_status osdp_device_new_nonnull(osdp_device *device, const struct osdp_device_config *config, const uint8_t *capabilities, osdp_size length);
OSDP_CHECKED osdp_status osdp_device_new_with_room_nonnull(
    osdp_device *device, const struct osdp_device_config *config, const uint8_t *capabilities, osdp_size length, osdp_size bytes);
OSDP_CHECKED osdp_status osdp_device_set_inputs_nonnull(osdp_device *device, const uint8_t *states, osdp_size length);
OSDP_CHECKED osdp_status osdp_device_set_outputs_nonnull(osdp_device *device, const uint8_t *states, osdp_size length);
OSDP_CHECKED osdp_status osdp_device_set_readers_nonnull(osdp_device *device, const uint8_t *states, osdp_size length);
OSDP_CHECKED osdp_status osdp_device_event_nonnull(osdp_device *device, uint8_t code, const uint8_t *data, osdp_size length);
OSDP_CHECKED osdp_status osdp_device_event_text_nonnull(osdp_device *device, const char *text, osdp_size length);
OSDP_CHECKED osdp_status osdp_device_step_nonnull(
    osdp_device *device, const uint8_t *bytes, osdp_size length, uint64_t now, osdp_size *taken, struct osdp_answer *answer);
OSDP_CHECKED osdp_status osdp_device_answer_list_nonnull(osdp_device *device, const uint8_t *states, osdp_size length);
OSDP_CHECKED osdp_status osdp_device_answer_maker_nonnull(osdp_device *device, const uint8_t *vendor, const uint8_t *bytes, osdp_size length);
OSDP_CHECKED osdp_status osdp_monitor_bytes_nonnull(osdp_monitor *monitor, const uint8_t *bytes, osdp_size length);
OSDP_CHECKED osdp_status osdp_monitor_next_text_nonnull(osdp_monitor *monitor, char *text, osdp_size room, osdp_size *text_length);

/* Whether a pointer is null although so many bytes or records are to be there. */
static inline int osdp_is_missing(const void *pointer, osdp_size length)
{
    return pointer == NULL && length != 0;
}

static inline const uint8_t *osdp_some_bytes(const uint8_t *bytes)
{
    static const uint8_t none[1] = { 0 };
    return bytes != NULL ? bytes : none;
}

static inline const char *osdp_some_text(const char *text)
{
    static const char none[1] = { 0 };
    return text != NULL ? text : none;
}

static inline char *osdp_some_room(char *room)
{
    static char none[1] = { 0 };
    return room != NULL ? room : none;
}

static inline const struct osdp_output *osdp_some_outputs(const struct osdp_output *outputs)
{
    static const struct osdp_output none[1] = { { 0, 0, 0 } };
    return outputs != NULL ? outputs : none;
}

static inline const struct osdp_led *osdp_some_leds(const struct osdp_led *leds)
{
    static const struct osdp_led none[1] = { { 0, 0, 0, { 0, 0, 0, 0, 0 }, { 0, 0, 0, 0, 0 } } };
    return leds != NULL ? leds : none;
}

static inline osdp_status osdp_command_text(uint8_t code, const uint8_t *data, osdp_size length, char *text, osdp_size room, osdp_size *text_length)
{
    if (osdp_is_missing(data, length) || osdp_is_missing(text, room)) {
        return OSDP_BAD_LENGTH;
    }
    return osdp_command_text_nonnull(code, osdp_some_bytes(data), length, osdp_some_room(text), room, text_length);
}

static inline osdp_status osdp_reply_text(uint8_t code, const uint8_t *data, osdp_size length, char *text, osdp_size room, osdp_size *text_length)
{
    if (osdp_is_missing(data, length) || osdp_is_missing(text, room)) {
        return OSDP_BAD_LENGTH;
    }
    return osdp_reply_text_nonnull(code, osdp_some_bytes(data), length, osdp_some_room(text), room, text_length);
}

static inline osdp_status osdp_out(const struct osdp_output *outputs, osdp_size count, struct osdp_message *command)
{
    if (osdp_is_missing(outputs, count)) {
        return OSDP_BAD_LENGTH;
    }
    return osdp_out_nonnull(osdp_some_outputs(outputs), count, command);
}

static inline osdp_status osdp_led(const struct osdp_led *leds, osdp_size count, struct osdp_message *command)
{
    if (osdp_is_missing(leds, count)) {
        return OSDP_BAD_LENGTH;
    }
    return osdp_led_nonnull(osdp_some_leds(leds), count, command);
}

static inline osdp_status osdp_panel_submit(
    osdp_panel *panel, osdp_size entry, uint8_t code, const uint8_t *data, osdp_size length, uint64_t until, uint64_t *number)
{
    if (osdp_is_missing(data, length)) {
        return OSDP_BAD_LENGTH;
    }
    return osdp_panel_submit_nonnull(panel, entry, code, osdp_some_bytes(data), length, until, number);
}

static inline osdp_status osdp_panel_submit_text(
    osdp_panel *panel, osdp_size entry, const char *text, osdp_size length, uint64_t until, uint64_t *number)
{
    if (osdp_is_missing(text, length)) {
        return OSDP_BAD_LENGTH;
    }
    return osdp_panel_submit_text_nonnull(panel, entry, osdp_some_text(text), length, until, number);
}

static inline osdp_status osdp_panel_bytes(osdp_panel *panel, const uint8_t *bytes, osdp_size length, uint64_t now)
{
    if (osdp_is_missing(bytes, length)) {
        return OSDP_BAD_LENGTH;
    }
    return osdp_panel_bytes_nonnull(panel, osdp_some_bytes(bytes), length, now);
}

static inline osdp_status osdp_device_new(osdp_device *device, const struct osdp_device_config *config, const uint8_t *capabilities, osdp_size length)
{
    if (osdp_is_missing(capabilities, length)) {
        return OSDP_BAD_LENGTH;
    }
    return osdp_device_new_nonnull(device, config, osdp_some_bytes(capabilities), length);
}

static inline osdp_status osdp_device_new_with_room(
    osdp_device *device, const struct osdp_device_config *config, const uint8_t *capabilities, osdp_size length, osdp_size bytes)
{
    if (osdp_is_missing(capabilities, length)) {
        return OSDP_BAD_LENGTH;
    }
    return osdp_device_new_with_room_nonnull(device, config, osdp_some_bytes(capabilities), length, bytes);
}

static inline osdp_status osdp_device_set_inputs(osdp_device *device, const uint8_t *states, osdp_size length)
{
    if (osdp_is_missing(states, length)) {
        return OSDP_BAD_LENGTH;
    }
    return osdp_device_set_inputs_nonnull(device, osdp_some_bytes(states), length);
}

static inline osdp_status osdp_device_set_outputs(osdp_device *device, const uint8_t *states, osdp_size length)
{
    if (osdp_is_missing(states, length)) {
        return OSDP_BAD_LENGTH;
    }
    return osdp_device_set_outputs_nonnull(device, osdp_some_bytes(states), length);
}

static inline osdp_status osdp_device_set_readers(osdp_device *device, const uint8_t *states, osdp_size length)
{
    if (osdp_is_missing(states, length)) {
        return OSDP_BAD_LENGTH;
    }
    return osdp_device_set_readers_nonnull(device, osdp_some_bytes(states), length);
}

static inline osdp_status osdp_device_event(osdp_device *device, uint8_t code, const uint8_t *data, osdp_size length)
{
    if (osdp_is_missing(data, length)) {
        return OSDP_BAD_LENGTH;
    }
    return osdp_device_event_nonnull(device, code, osdp_some_bytes(data), length);
}

static inline osdp_status osdp_device_event_text(osdp_device *device, const char *text, osdp_size length)
{
    if (osdp_is_missing(text, length)) {
        return OSDP_BAD_LENGTH;
    }
    return osdp_device_event_text_nonnull(device, osdp_some_text(text), length);
}

static inline osdp_status osdp_device_step(
    osdp_device *device, const uint8_t *bytes, osdp_size length, uint64_t now, osdp_size *taken, struct osdp_answer *answer)
{
    if (osdp_is_missing(bytes, length)) {
        return OSDP_BAD_LENGTH;
    }
    return osdp_device_step_nonnull(device, osdp_some_bytes(bytes), length, now, taken, answer);
}

static inline osdp_status osdp_device_answer_list(osdp_device *device, const uint8_t *states, osdp_size length)
{
    if (osdp_is_missing(states, length)) {
        return OSDP_BAD_LENGTH;
    }
    return osdp_device_answer_list_nonnull(device, osdp_some_bytes(states), length);
}

static inline osdp_status osdp_device_answer_maker(osdp_device *device, const uint8_t *vendor, const uint8_t *bytes, osdp_size length)
{
    if (osdp_is_missing(bytes, length)) {
        return OSDP_BAD_LENGTH;
    }
    return osdp_device_answer_maker_nonnull(device, vendor, osdp_some_bytes(bytes), length);
}

static inline osdp_status osdp_monitor_bytes(osdp_monitor *monitor, const uint8_t *bytes, osdp_size length)
{
    if (osdp_is_missing(bytes, length)) {
        return OSDP_BAD_LENGTH;
    }
    return osdp_monitor_bytes_nonnull(monitor, osdp_some_bytes(bytes), length);
}

static inline osdp_status osdp_monitor_next_text(osdp_monitor *monitor, char *text, osdp_size room, osdp_size *text_length)
{
    if (osdp_is_missing(text, room)) {
        return OSDP_BAD_LENGTH;
    }
    return osdp_monitor_next_text_nonnull(monitor, osdp_some_room(text), room, text_length);
}

#ifdef __cplusplus
}
#if defined __GNUC__ && !defined __clang__
#pragma GCC diagnostic pop
#endif
#endif

#endif
