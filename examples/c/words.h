/* Settings, numbers and texts, as the examples read and print them. */
#ifndef WORDS_H
#define WORDS_H

#include "kept.h"
#include "osdp.h"

/* Status of a program: bad words; the port, the trace or standard output fails; out of memory. */
enum { BAD_WORDS = 2, FAILED = 3, OUT_OF_MEMORY = 4 };

/* What a reader is made of: its capabilities are three bytes each. */
struct reader_settings {
    struct osdp_device_config config;
    uint8_t capabilities[1434];
    size_t length;
};

/* Sets what a setting's name and value say; ends the program where they are none. */
void set_panel(struct osdp_panel_config *config, const char *name, const char *value);
void set_reader(struct reader_settings *settings, const char *name, const char *value);

/* Opens the file of `--trace`, if it is named, sets how late the program may be where `--late` says so, and gives the other words, of which there are at least so
 * many, and then pairs. `--help` prints the usage. Ends the program where the words are others. `kept` gets what they say of the program's store; it is NULL for a program
 * that has none. */
char **take_words(int *count, char **words, int least, const char *usage, struct kept_words *kept);

/* The same for a program without settings: there are just so many words. */
char **take_just(int count, char **words, int many, const char *usage, struct kept_words *kept);

/* The number that a word is; ends the program where it is none. */
uint32_t number(const char *word, const char *what);

/* The bytes that digits stand for, or `none`: how many; more than the room where they are none. */
size_t digits(const char *word, uint8_t *bytes, size_t room);

/* The text of a message, or `no text` where it has none. It stays until the next call. */
const char *command_text(const struct osdp_message *command);
const char *reply_text(const struct osdp_message *reply);

/* Whether the text of an event is that of a card or of keys, and came while the program was stopped, which is told: nobody stands there any more. */
bool is_too_old(const char *event);

/* Prints what a report tells: a name, a reader's number, and the command and the reply that it has. */
void tell_report(const struct osdp_report *report);

/* Prints a part of a line, and lets it go at once. Where nobody reads it any more the program ends without a word. */
void tell(const char *format, ...);

/* Prints why a call was refused, as `refused line`. Whether it was. */
bool tell_refusal(osdp_status status);

/* Ends the program with one line on standard error. */
_Noreturn void stop(int status, const char *format, ...);

#endif
