/* The example of README, and messages for it. What it shows and sends is printed
 * in lines of at most forty cells; firmware/example.txt is what that must be. */
#include "smrcholet.h"

#include <stdio.h>

static void print_octets(const char *word, const uint8_t *octets, size_t length)
{
    printf("%s", word);
    for (size_t i = 0; i < length; i++)
        printf("%s%02X", i > 0 && i % 16 == 0 ? "\n     " : "", (unsigned)octets[i]);
    puts("");
}

static void show(const uint8_t *string, size_t length, uint8_t scheme)
{
    printf("scheme %02X\n", (unsigned)scheme);
    print_octets("show ", string, length);
}

static void send(const uint8_t *message, size_t length)
{
    print_octets("send ", message, length);
}

/* README has the lines from here */
static uint8_t table[SMR_TABLE]; /* zero at the start */

static void arrived(const uint8_t *message, size_t length)
{
    static const uint8_t choice[] = {0x30, 0x06,        /* USSD-Res, length */
                                     0x04, 0x01, 0x0F,  /* the coding scheme */
                                     0x04, 0x01, 0x31}; /* the string: "1" */
    uint8_t reply[SMR_REPLY], out[SMR_MESSAGE];
    smr_called c = {0, 0, 0};
    smr_received r = smr_receive(table, sizeof table, message, length,
                                 reply, sizeof reply);
    if (r.written > 0) send(reply, r.written);
    if (r.text.is_there) /* its places in your message */
        show(message + r.text.string.start,
             r.text.string.end - r.text.string.start, r.text.scheme);
    if (r.code != SMR_TAKEN || r.shown.kind == SMR_NOTHING) return;

    uint8_t flag = SMR_FLAG(message[0]), value = SMR_VALUE(message[0]);
    if (r.shown.kind == SMR_INVOKE && r.text.is_there) /* 60, or 61: no choice */
        c = smr_result(table, sizeof table, flag, value, r.shown.id, choice,
                       r.shown.operation == 60 ? sizeof choice : 0,
                       out, sizeof out);
    if (r.shown.kind != SMR_INVOKE && flag == 1) /* what we asked is answered */
        c = smr_release(table, sizeof table, flag, value, out, sizeof out);
    if (c.written > 0) send(out, c.written);
}
/* up to here */

/* A question of ours: *100#, packed in sevens as scheme 0F has it. */
static void ask(void)
{
    static const uint8_t question[] = {0x30, 0x0A, 0x04, 0x01, 0x0F, 0x04,
                                       0x05, 0xAA, 0x18, 0x0C, 0x36, 0x02};
    uint8_t out[SMR_MESSAGE];
    smr_called c = smr_begin(table, sizeof table, 59, 1, question, sizeof question,
                             out, sizeof out);
    puts("we ask");
    if (c.written > 0) send(out, c.written);
}

int main(void)
{
    static const struct {
        const char *name;
        size_t length;
        uint8_t octets[22];
    } messages[] = {
        {"W1, a menu", 20, {0x0B, 0x3B, 0x1C, 0x10, 0xA1, 0x0E, 0x02, 0x01, 0x05, 0x02, 0x01,
                            0x3C, 0x30, 0x06, 0x04, 0x01, 0x0F, 0x04, 0x01, 0x41}},
        {"the network's value 3, id -1", 20,
         {0x3B, 0x3B, 0x1C, 0x10, 0xA1, 0x0E, 0x02, 0x01, 0xFF, 0x02, 0x01,
          0x3C, 0x30, 0x06, 0x04, 0x01, 0x0F, 0x04, 0x01, 0x42}},
        {"a notice in it", 19, {0x3B, 0x3A, 0x10, 0xA1, 0x0E, 0x02, 0x01, 0x06, 0x02, 0x01,
                                0x3D, 0x30, 0x06, 0x04, 0x01, 0x0F, 0x04, 0x01, 0x43}},
        {"the network ends W1", 2, {0x0B, 0x2A}},
        {"a menu in our value 1", 19,
         {0x9B, 0x3A, 0x10, 0xA1, 0x0E, 0x02, 0x01, 0x07, 0x02, 0x01,
          0x3C, 0x30, 0x06, 0x04, 0x01, 0x0F, 0x04, 0x01, 0x44}},
        {"the answer there", 21, {0x9B, 0x3A, 0x12, 0xA2, 0x10, 0x02, 0x01, 0x01, 0x30, 0x0B, 0x02,
                                  0x01, 0x3B, 0x30, 0x06, 0x04, 0x01, 0x0F, 0x04, 0x01, 0x45}},
        {"the answer to value 0, and its end", 22,
         {0x8B, 0x2A, 0x1C, 0x12, 0xA2, 0x10, 0x02, 0x01, 0x01, 0x30, 0x0B,
          0x02, 0x01, 0x3B, 0x30, 0x06, 0x04, 0x01, 0x0F, 0x04, 0x01, 0x46}},
        {"once more: nobody asks", 3, {0x8B, 0x3A, 0x00}},
    };
    ask();
    ask();
    for (size_t i = 0; i < sizeof messages / sizeof *messages; i++) {
        puts(messages[i].name);
        arrived(messages[i].octets, messages[i].length);
    }
    return 0;
}
