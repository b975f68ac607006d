/* Settings and numbers, as words of the command line. */
#include <stdlib.h>
#include <string.h>

#include "words.h"

/* The number that a text begins with, and where it ends; NULL where it begins with none, or with one above `most`. */
static char *first_number(const char *text, uint32_t most, uint32_t *value)
{
    char *end;
    unsigned long long read = strtoull(text, &end, 10);
    if (*text < '0' || *text > '9' || read > most) {
        return NULL;
    }
    *value = (uint32_t)read;
    return end;
}

uint32_t number(const char *word, const char *what)
{
    uint32_t value;
    const char *end = first_number(word, UINT32_MAX, &value);
    if (end == NULL || *end != '\0') {
        stop(BAD_WORDS, "bad %s: %s", what, word);
    }
    return value;
}

/* Reads so many numbers from 0 to 255, with `:` between them. Whether the word is that. */
static bool numbers(const char *word, uint8_t *bytes, size_t count)
{
    for (size_t i = 0; i < count; i++) {
        uint32_t value;
        const char *end = first_number(word, 255, &value);
        if (end == NULL || *end != (i + 1 < count ? ':' : '\0')) {
            return false;
        }
        bytes[i] = (uint8_t)value;
        word = end + 1;
    }
    return true;
}

size_t digits(const char *word, uint8_t *bytes, size_t room)
{
    size_t length = strlen(word) / 2;
    if (strcmp(word, "none") == 0) {
        return 0;
    }
    if (length == 0 || strlen(word) % 2 != 0 || length > room || strspn(word, "0123456789ABCDEFabcdef") != 2 * length) {
        return room + 1;
    }
    for (size_t i = 0; i < length; i++) {
        char pair[] = { word[2 * i], word[2 * i + 1], '\0' };
        bytes[i] = (uint8_t)strtoul(pair, NULL, 16);
    }
    return length;
}

void set_panel(struct osdp_panel_config *config, const char *name, const char *value)
{
    const struct {
        const char *name;
        uint32_t *field;
    } settings[] = {
        { "reply-wait", &config->reply_wait }, { "poll-interval", &config->poll_interval }, { "sends", &config->sends },
        { "busy-wait", &config->busy_wait },   { "busy-limit", &config->busy_limit },       { "quiet-wait", &config->quiet_wait },
        { "gap", &config->gap },               { "capacity", &config->capacity },
    };
    if (strcmp(name, "check") == 0 && (strcmp(value, "sum") == 0 || strcmp(value, "crc") == 0)) {
        config->check = strcmp(value, "crc") == 0 ? OSDP_CHECK_CRC : OSDP_CHECK_SUM;
        return;
    }
    for (size_t i = 0; i < sizeof settings / sizeof settings[0]; i++) {
        if (strcmp(name, settings[i].name) == 0) {
            *settings[i].field = number(value, name);
            return;
        }
    }
    stop(BAD_WORDS, "bad setting: %s", name);
}

/* Sets what has several numbers, or digits. Whether the name and the value are such. */
static bool set_bytes(struct reader_settings *settings, const char *name, const char *value)
{
    struct osdp_product *product = &settings->config.product;
    if (strcmp(name, "vendor") == 0) {
        return strlen(value) == 6 && digits(value, product->vendor, 3) == 3;
    }
    if (strcmp(name, "model") == 0) {
        return numbers(value, &product->model, 1);
    }
    if (strcmp(name, "version") == 0) {
        return numbers(value, &product->version, 1);
    }
    if (strcmp(name, "firmware") == 0) {
        uint8_t version[3];
        bool is_version = numbers(value, version, 3);
        product->firmware_major = is_version ? version[0] : 0;
        product->firmware_minor = is_version ? version[1] : 0;
        product->firmware_build = is_version ? version[2] : 0;
        return is_version;
    }
    if (strcmp(name, "cap") == 0 && settings->length < 1431) {
        settings->length += 3;
        return numbers(value, settings->capabilities + settings->length - 3, 3);
    }
    return false;
}

void set_reader(struct reader_settings *settings, const char *name, const char *value)
{
    struct osdp_device_config *config = &settings->config;
    const struct {
        const char *name;
        uint32_t *field;
    } fields[] = { { "address", &config->address }, { "serial", &config->serial }, { "room", &config->capacity }, { "gap", &config->gap } };
    for (size_t i = 0; i < sizeof fields / sizeof fields[0]; i++) {
        if (strcmp(name, fields[i].name) == 0) {
            *fields[i].field = number(value, name);
            return;
        }
    }
    if (!set_bytes(settings, name, value)) {
        stop(BAD_WORDS, "bad setting: %s %s", name, value);
    }
}
