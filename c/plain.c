#include "plain.h"

#include <string.h>

static const uint64_t TO_ALL = UINT64_C(0xFFFFFFFFFFFF);
static const uint64_t CONTROLLER = UINT64_C(0x7FF000000000);

static void put_six(uint8_t *at, uint64_t number)
{
    for (int i = 0; i < 6; i++)
        at[i] = (uint8_t)(number >> (40 - 8 * i));
}

int64_t plain_write_branch(uint8_t transaction, uint64_t lo, uint64_t hi, uint8_t *buf, size_t room)
{
    if (lo >= TO_ALL || hi >= TO_ALL)
        return -1;
    if (lo > hi)
        return -2;
    if (room < 38)
        return -4;
    buf[0] = 0xCC;
    buf[1] = 0x01;
    buf[2] = 36;
    put_six(buf + 3, TO_ALL);
    put_six(buf + 9, CONTROLLER);
    buf[15] = transaction;
    buf[16] = 0x01;
    memset(buf + 17, 0, 3);
    buf[20] = 0x10;
    buf[21] = 0x00;
    buf[22] = 0x01;
    buf[23] = 12;
    put_six(buf + 24, lo);
    put_six(buf + 30, hi);
    uint16_t sum = 0;
    for (int i = 0; i < 36; i++)
        sum = (uint16_t)(sum + buf[i]);
    buf[36] = (uint8_t)(sum >> 8);
    buf[37] = (uint8_t)sum;
    return 38;
}

int64_t plain_read_branch_reply(const uint8_t *bytes, size_t size)
{
    size_t lead = 0;
    while (lead < size && lead < 7 && bytes[lead] == 0xFE)
        lead++;
    if (lead == size || bytes[lead] != 0xAA)
        return -5;
    const uint8_t *body = bytes + lead + 1;
    if (size - lead - 1 != 16)
        return -6;
    for (int i = 0; i < 16; i += 2) {
        if ((body[i] & 0xAA) != 0xAA || (body[i + 1] & 0x55) != 0x55)
            return -7;
    }
    uint16_t sum = 0;
    for (int i = 0; i < 12; i++)
        sum = (uint16_t)(sum + body[i]);
    uint16_t carried = (uint16_t)((body[12] & body[13]) << 8 | (body[14] & body[15]));
    if (sum != carried)
        return -8;
    uint64_t key = 0;
    for (int i = 0; i < 12; i += 2)
        key = key << 8 | (body[i] & body[i + 1]);
    return key == TO_ALL ? -1 : (int64_t)key;
}
