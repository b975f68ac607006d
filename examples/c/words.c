/* Words of the command line, lines that are printed, and texts of messages. */
#include <errno.h>
#include <fcntl.h>
#include <signal.h>
#include <stdarg.h>
#include <stdio.h>
#include <stdlib.h>
#include <string.h>

#include "port.h"
#include "words.h"

void stop(int status, const char *format, ...)
{
    va_list rest;
    va_start(rest, format);
    vfprintf(stderr, format, rest);
    va_end(rest);
    fputc('\n', stderr);
    exit(status);
}

void tell(const char *format, ...)
{
    va_list rest;
    va_start(rest, format);
    bool failed = vprintf(format, rest) < 0 || fflush(stdout) != 0;
    va_end(rest);
    if (failed && errno == EPIPE) {
        exit(FAILED);
    }
    if (failed) {
        stop(FAILED, "standard output can't be written");
    }
}

/* A standard stream that is closed stays one that fails: else the port would take its place, and what is told would go out on the line. */
static void fill_streams(void)
{
    for (int stream = 0; stream <= 2; stream++) {
        if (fcntl(stream, F_GETFD) < 0) {
            (void)open("/dev/null", stream == 0 ? O_WRONLY : O_RDONLY);
        }
    }
}

/* How late the program may be. */
static void take_late(const char *word)
{
    uint32_t late = number(word, "--late");
    if (late < 100 || late > 60000) {
        stop(BAD_WORDS, "bad --late: %s isn't from 100 to 60000 milliseconds", word);
    }
    set_late(late);
}

/* Takes an option, of which `kept` has what a file keeps. How many words it has; 0 where it is none. */
static int take_option(char **words, int count, const char **trace, struct kept_words *kept)
{
    if (kept != NULL && strcmp(words[0], "--new") == 0) {
        kept->is_new = true;
        return 1;
    }
    if (count > 1 && kept != NULL && kept->is_word && strcmp(words[0], "--retain") == 0) {
        kept->retain = number(words[1], "--retain");
        return 2;
    }
    if (count > 1 && strcmp(words[0], "--late") == 0) {
        take_late(words[1]);
        return 2;
    }
    if (count > 1 && strcmp(words[0], "--trace") == 0) {
        *trace = words[1];
        return 2;
    }
    if (count > 1 && kept != NULL && !kept->is_word && strcmp(words[0], "--keep") == 0) {
        kept->path = words[1];
        return 2;
    }
    return 0;
}

char **take_words(int *count, char **words, int least, const char *usage, struct kept_words *kept)
{
    const char *trace = NULL;
    (void)signal(SIGPIPE, SIG_IGN);
    fill_streams();
    words++;
    *count -= *count > 0;
    if (*count == 1 && (strcmp(words[0], "--help") == 0 || strcmp(words[0], "-h") == 0)) {
        tell("%s", usage);
        exit(0);
    }
    for (int taken = 1; *count > 0 && taken > 0; *count -= taken, words += taken) {
        taken = take_option(words, *count, &trace, kept);
    }
    bool is_bad = kept != NULL && kept->is_new && !kept->is_word && kept->path == NULL;
    if (is_bad || *count < least || words[0][0] == '-' || (*count - least) % 2 != 0) {
        stop(BAD_WORDS, "bad words: --help tells the right ones");
    }
    if (trace != NULL) {
        open_trace(trace);
    }
    return words;
}

char **take_just(int count, char **words, int many, const char *usage, struct kept_words *kept)
{
    words = take_words(&count, words, many, usage, kept);
    if (count != many) {
        stop(BAD_WORDS, "bad words: --help tells the right ones");
    }
    return words;
}

typedef osdp_status text_call(uint8_t, const uint8_t *, osdp_size, char *, osdp_size, osdp_size *);

static const char *text_of(text_call *call, const struct osdp_message *message)
{
    static char text[6145];
    osdp_size length;
    if (call(message->code, message->data, message->length, text, sizeof text - 1, &length) != OSDP_OK) {
        return "no text";
    }
    text[length] = '\0';
    return text;
}

const char *command_text(const struct osdp_message *command)
{
    return text_of(osdp_command_text, command);
}

const char *reply_text(const struct osdp_message *reply)
{
    return text_of(osdp_reply_text, reply);
}

bool is_too_old(const char *event)
{
    bool is_old = was_stopped() && (strncmp(event, "RAW ", 4) == 0 || strncmp(event, "FMT ", 4) == 0 || strncmp(event, "KEYPAD ", 7) == 0);
    if (is_old) {
        tell("too old %s\n", event);
    }
    return is_old;
}

bool tell_refusal(osdp_status status)
{
    if (status == OSDP_BAD_TEXT) {
        tell("refused line\n");
    } else if (status != OSDP_OK) {
        tell("refused %s\n", osdp_status_text(status));
    }
    return status != OSDP_OK;
}

void tell_report(const struct osdp_report *report)
{
    static const char *const names[] = { "", "opened", "settled", "moved", "event", "answered", "unread", "lost", "expired" };
    static const char *const causes[] = { "", "no-reply", "too-busy", "number-refused" };
    tell("%s %zu", report->kind <= OSDP_REPORT_EXPIRED ? names[report->kind] : "", (size_t)report->entry + 1);
    if (report->kind == OSDP_REPORT_LOST) {
        tell(" %s%s", causes[report->detail & 3], report->too_late ? " withheld" : "");
    } else if (report->kind == OSDP_REPORT_UNREAD) {
        tell(" code %02X", (unsigned)report->detail);
    }
    if (report->command.present) {
        tell(" %s", command_text(&report->command));
    }
    if (report->reply.present) {
        tell("%s %s", report->command.present ? " =" : "", reply_text(&report->reply));
    }
    tell("\n");
}
