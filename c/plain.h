/* The same two functions as a C programmer writes them, to measure against. */
#ifndef PLAIN_H
#define PLAIN_H

#include <stddef.h>
#include <stdint.h>

int64_t plain_write_branch(uint8_t transaction, uint64_t lo, uint64_t hi, uint8_t *buf, size_t room);
int64_t plain_read_branch_reply(const uint8_t *bytes, size_t size);

#endif
