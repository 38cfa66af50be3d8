/*
 * Frame writers and readers for firmware in C: RDM (ANSI E1.20) and DALI (IEC 62386-102).
 *
 * Every function answers one number. If it is not negative it is what the function's comment says: a length, a key or a
 * kind. If it is negative it is minus the number of a refusal. A function that refuses has written nothing; one that writes
 * touches no byte at or past the length that it answers.
 *
 * A key is the number that stands for it on the wire: 48 bits with the manufacturer first on RDM, 24 bits on DALI.
 * `buf` has `room` bytes. `bytes` has `size` bytes and is only read.
 */
#ifndef KIMARULEN_H
#define KIMARULEN_H

#include <stddef.h>
#include <stdint.h>

#ifdef __cplusplus
extern "C" {
#endif

/* Refusals, in the order in which writers (1 to 4) and the reply reader (5, 6, 8, 9) look for them. The branch reply reader
 * looks for 5, 6, 7, 8 and then 1. */
enum kimarulen_refusal {
    KIMARULEN_NOT_A_KEY = 1,         /* a number that is no key of its family */
    KIMARULEN_LOWER_ABOVE_UPPER = 2, /* the lower end of a branch is above its upper end */
    KIMARULEN_ADDRESS_OUTSIDE = 3,   /* an address that the family does not have */
    KIMARULEN_BUFFER_TOO_SHORT = 4,  /* the frame is longer than `room` */
    KIMARULEN_WRONG_START = 5,       /* the bytes begin otherwise than a packet or branch reply does */
    KIMARULEN_WRONG_LENGTH = 6,      /* more or fewer bytes than there have to be */
    KIMARULEN_MISSING_BITS = 7,      /* a pair of a branch reply lacks the bits that are always set */
    KIMARULEN_WRONG_CHECKSUM = 8,    /* the sum is not that of the bytes */
    KIMARULEN_NO_MATCH = 9           /* a sound packet, but no reply to this question */
};

/* For `to`: every fixture. */
#define KIMARULEN_TO_ALL UINT64_C(0xFFFFFFFFFFFF)

/* Where the data of a reply begins. */
#define KIMARULEN_REPLY_DATA 24

/* Kinds of replies. */
#define KIMARULEN_YES 0
#define KIMARULEN_NO 2

/* The branch question to all: who from lo to hi is there and not muted? Length 38; refusals 1, 2, 4. */
int64_t rdm_write_branch(uint8_t transaction, uint64_t lo, uint64_t hi, uint8_t *buf, size_t room);

/* The mute question, to a key or to all. Length 26; refusals 1, 4. */
int64_t rdm_write_mute(uint8_t transaction, uint64_t to, uint8_t *buf, size_t room);

/* The un-mute question, to a key or to all. Length 26; refusals 1, 4. */
int64_t rdm_write_un_mute(uint8_t transaction, uint64_t to, uint8_t *buf, size_t room);

/* The question for device info. Length 26; refusals 1, 4. */
int64_t rdm_write_device_info(uint8_t transaction, uint64_t key, uint8_t *buf, size_t room);

/* The question that sets the start address, a slot from 1 to 512. Length 28; refusals 1, 3, 4. */
int64_t rdm_write_start_address(uint8_t transaction, uint64_t key, uint32_t slot, uint8_t *buf, size_t room);

/* What a reply says: KIMARULEN_YES or KIMARULEN_NO. The class, parameter ID, transaction number and key are those of the
 * question that was asked. Refusals 5, 6, 8, 9. */
int64_t rdm_reply_kind(uint8_t question_class, uint16_t pid, uint8_t transaction, uint64_t key, const uint8_t *bytes,
                       size_t size);

/* How many bytes of data a reply has, from KIMARULEN_REPLY_DATA on. Refuses as rdm_reply_kind does. */
int64_t rdm_reply_size(uint8_t question_class, uint16_t pid, uint8_t transaction, uint64_t key, const uint8_t *bytes,
                       size_t size);

/* The branch reply of a key, as a fixture sends it. Length 24; refusals 1, 4. */
int64_t rdm_write_branch_reply(uint64_t key, uint8_t *buf, size_t room);

/* The key whose branch reply the bytes are; up to seven bytes at the front may be lost. Refusals 5, 6, 7, 8, 1. */
int64_t rdm_read_branch_reply(const uint8_t *bytes, size_t size);

/* A100, TERMINATE. Length 2; refusal 4. */
int64_t dali_write_terminate(uint8_t *buf, size_t room);

/* A500, INITIALISE, to be sent twice. Length 2; refusal 4. */
int64_t dali_write_initialise(uint8_t *buf, size_t room);

/* A900, COMPARE. Length 2; refusal 4. */
int64_t dali_write_compare(uint8_t *buf, size_t room);

/* AB00, WITHDRAW. Length 2; refusal 4. */
int64_t dali_write_withdraw(uint8_t *buf, size_t room);

/* BB00, QUERY SHORT ADDRESS. Length 2; refusal 4. */
int64_t dali_write_query_short_address(uint8_t *buf, size_t room);

/* B7FF: the unit at the search address has no address any more. Length 2; refusal 4. */
int64_t dali_write_delete(uint8_t *buf, size_t room);

/* The three frames that set the search address to a key of 24 bits. Length 6; refusals 1, 4. */
int64_t dali_write_search(uint64_t key, uint8_t *buf, size_t room);

/* B7 with an address from 0 to 63: the unit at the search address takes it. Length 2; refusals 3, 4. */
int64_t dali_write_program(uint32_t slot, uint8_t *buf, size_t room);

#ifdef __cplusplus
}
#endif

#endif
