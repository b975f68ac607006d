/* Events that are too old: where nobody polls, a card is told to nobody after a limit, and whether an answer may have told it is told apart. */
#include <string.h>

#include "demands.h"
#include "osdp.h"

#define LIMIT 30000

/* ID with number 0 and POLL with numbers 1 and 2, to the device at 5. */
static const uint8_t id[] = { 0x53, 0x05, 0x08, 0x00, 0x00, 0x61, 0x00, 0x3F };
static const uint8_t poll_1[] = { 0x53, 0x05, 0x07, 0x00, 0x01, 0x60, 0x40 };
static const uint8_t poll_2[] = { 0x53, 0x05, 0x07, 0x00, 0x02, 0x60, 0x3F };

/* The code of the answer to a packet. */
static uint8_t answer_to(osdp_device *device, const uint8_t *packet, size_t length, uint64_t now)
{
    static struct osdp_answer answer;
    size_t taken = 0;
    demand(osdp_device_step(device, packet, length, now, &taken, &answer) == OSDP_OK && taken == length);
    demand(answer.burst.length >= 7);
    return answer.burst.bytes[5];
}

static osdp_device opened(void)
{
    osdp_device device = { 0 };
    struct osdp_device_config config = { .address = 5, .capacity = 4, .gap = 20 };
    uint32_t offline = 9;
    demand(osdp_device_new(&device, &config, NULL, 0) == OSDP_OK);
    demand(osdp_device_is_offline(&device, 0, &offline) == OSDP_OK && offline == 1);
    demand(answer_to(&device, id, sizeof id, 1000) == OSDP_PDID);
    demand(osdp_device_is_offline(&device, 8999, &offline) == OSDP_OK && offline == 0);
    return device;
}

static void holds(osdp_device *device, const char *card)
{
    demand(osdp_device_event_text(device, card, strlen(card)) == OSDP_OK);
}

/* What becomes of the oldest event at a moment, and the last byte of its card. */
static void expires(osdp_device *device, uint64_t now, uint64_t limit, uint32_t wanted, uint8_t last)
{
    static struct osdp_message event;
    uint32_t expired = 9;
    demand(osdp_device_expire_event(device, now, limit, &expired, &event) == OSDP_OK && expired == wanted);
    if (wanted == OSDP_EXPIRED_NONE)
        demand(event.present == 0);
    else
        demand(event.present == 1 && event.code == OSDP_RAW && event.length == 8 && event.data[7] == last);
}

/* The panel is stopped, a card is held, and the panel comes back 45 s later. */
static void a_card_of_long_ago(void)
{
    osdp_device device = opened();
    uint32_t offline = 9;
    size_t count = 9;
    holds(&device, "RAW 0 0 26 12345640");
    demand(osdp_device_is_offline(&device, 9000, &offline) == OSDP_OK && offline == 1);
    expires(&device, 38999, LIMIT, OSDP_EXPIRED_NONE, 0);
    expires(&device, 39000, 0, OSDP_EXPIRED_NONE, 0);
    expires(&device, 39000, LIMIT, OSDP_EXPIRED_WITHDRAWN, 0x40);
    demand(osdp_device_waiting(&device, &count) == OSDP_OK && count == 0);
    demand(answer_to(&device, id, sizeof id, 46000) == OSDP_PDID);
    demand(answer_to(&device, poll_1, sizeof poll_1, 46100) == OSDP_ACK);
    demand(osdp_device_free(&device) == OSDP_OK);
}

/* A card that was told once is in doubt; the one after it is withdrawn. */
static void doubts(void)
{
    static struct osdp_message event;
    osdp_device device = opened();
    holds(&device, "RAW 0 0 26 12345640");
    holds(&device, "RAW 0 0 26 12345680");
    holds(&device, "RAW 0 0 26 123456C0");
    demand(answer_to(&device, poll_1, sizeof poll_1, 9000) == OSDP_RAW);
    demand(osdp_device_withdraw_event(&device, &event) == OSDP_OK && event.present == 1 && event.data[7] == 0x80);
    expires(&device, 50000, LIMIT, OSDP_EXPIRED_IN_DOUBT, 0x40);
    demand(osdp_device_lapse_event(&device, &event) == OSDP_OK && event.present == 0);
    expires(&device, 50000, LIMIT, OSDP_EXPIRED_WITHDRAWN, 0xC0);
    demand(osdp_device_withdraw_event(&device, &event) == OSDP_OK && event.present == 0);
    demand(answer_to(&device, poll_1, sizeof poll_1, 50100) == OSDP_RAW);
    demand(answer_to(&device, poll_2, sizeof poll_2, 50200) == OSDP_ACK);
    demand(osdp_device_free(&device) == OSDP_OK);
    demand(osdp_device_withdraw_event(&device, &event) == OSDP_NO_MACHINE);
}

int main(void)
{
    a_card_of_long_ago();
    doubts();
    return 0;
}
