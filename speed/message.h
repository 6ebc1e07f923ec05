/* A message, made from its end to its front. */
#include <stdint.h>
#include <string.h>

static uint8_t message[300];
static size_t length;

/* Octets put before what is there of the message. */
static void put(size_t n, const uint8_t *octets)
{
    memmove(message + n, message, length);
    memcpy(message, octets, n);
    length += n;
}

/* An element made of what is there. */
static void wrap(uint8_t tag)
{
    if (length > 127) put(3, (uint8_t[]){tag, 0x81, (uint8_t)length});
    else put(2, (uint8_t[]){tag, (uint8_t)length});
}

/* The component that is there, in a message of this type. */
static void send(uint8_t first, uint8_t type)
{
    put(1, (uint8_t[]){(uint8_t)length});
    if (type != 0x3A) put(1, (uint8_t[]){0x1C});
    put(2, (uint8_t[]){first, type});
}
