/*
 * Runs the cases of the bench tool through the functions for C. Reads lines `REQUEST = ANSWER` from standard input, asks the
 * static library each request, and tells the lines whose answer differs. Lines with the answer `?` are no requests, and are
 * counted apart.
 */
#include "kimarulen.h"

#include <inttypes.h>
#include <stdio.h>
#include <stdlib.h>
#include <string.h>

enum { LINE_SIZE = 8192, FIELDS = 8, BYTES_SIZE = 1024, FRAME_SIZE = 64, ANSWER_SIZE = 4096 };

/* What every byte of a lent buffer is beforehand. */
static const uint8_t UNTOUCHED = 0x5A;

struct request {
    char *field[FIELDS];
    size_t count;
};

static struct request split(char *text)
{
    struct request request = {{0}, 0};
    for (char *word = strtok(text, " "); word != NULL && request.count < FIELDS; word = strtok(NULL, " "))
        request.field[request.count++] = word;
    return request;
}

static uint64_t hex(const char *text)
{
    return strtoull(text, NULL, 16);
}

static uint32_t decimal(const char *text)
{
    return (uint32_t)strtoul(text, NULL, 10);
}

static size_t read_bytes(const char *text, uint8_t *bytes)
{
    if (strcmp(text, "-") == 0)
        return 0;
    size_t size = strlen(text) / 2;
    for (size_t i = 0; i < size && i < BYTES_SIZE; i++) {
        const char pair[3] = {text[2 * i], text[2 * i + 1], 0};
        bytes[i] = (uint8_t)hex(pair);
    }
    return size;
}

static void show_bytes(const uint8_t *bytes, size_t size, char *answer)
{
    if (size == 0)
        strcpy(answer, "-");
    for (size_t i = 0; i < size; i++)
        sprintf(answer + 2 * i, "%02X", bytes[i]);
}

/* Asks the writer that the request names. */
static int64_t write_frame(const struct request *request, uint8_t *buf, size_t room)
{
    char *const *field = request->field;
    const char *kind = field[0];
    if (strcmp(kind, "branch") == 0)
        return rdm_write_branch((uint8_t)hex(field[1]), hex(field[2]), hex(field[3]), buf, room);
    if (strcmp(kind, "mute") == 0)
        return rdm_write_mute((uint8_t)hex(field[1]), hex(field[2]), buf, room);
    if (strcmp(kind, "unmute") == 0)
        return rdm_write_un_mute((uint8_t)hex(field[1]), hex(field[2]), buf, room);
    if (strcmp(kind, "info") == 0)
        return rdm_write_device_info((uint8_t)hex(field[1]), hex(field[2]), buf, room);
    if (strcmp(kind, "start") == 0)
        return rdm_write_start_address((uint8_t)hex(field[1]), hex(field[2]), decimal(field[3]), buf, room);
    if (strcmp(kind, "branchreply") == 0)
        return rdm_write_branch_reply(hex(field[1]), buf, room);
    if (strcmp(kind, "search") == 0)
        return dali_write_search(hex(field[1]), buf, room);
    if (strcmp(kind, "program") == 0)
        return dali_write_program(decimal(field[1]), buf, room);
    fprintf(stderr, "no such kind: %s\n", kind);
    exit(2);
}

/* Lends a writer exactly as much room as the request says, and looks at every byte behind what it answers. */
static void answer_writing(const struct request *request, char *answer)
{
    uint8_t memory[2 * FRAME_SIZE];
    size_t room = decimal(request->field[request->count - 1]);
    if (room > FRAME_SIZE)
        room = FRAME_SIZE;
    memset(memory, UNTOUCHED, sizeof memory);
    int64_t length = write_frame(request, memory, room);
    size_t written = length < 0 ? 0 : (size_t)length;
    for (size_t i = written; i < sizeof memory; i++) {
        if (memory[i] != UNTOUCHED) {
            sprintf(answer, "touched byte %zu", i);
            return;
        }
    }
    if (length < 0)
        sprintf(answer, "! %" PRId64, -length);
    else
        show_bytes(memory, written, answer);
}

static void answer_reply(const struct request *request, char *answer)
{
    uint8_t bytes[BYTES_SIZE];
    uint8_t class = (uint8_t)hex(request->field[1]);
    uint16_t pid = (uint16_t)hex(request->field[2]);
    uint8_t transaction = (uint8_t)hex(request->field[3]);
    uint64_t key = hex(request->field[4]);
    size_t size = read_bytes(request->field[5], bytes);
    int64_t kind = rdm_reply_kind(class, pid, transaction, key, bytes, size);
    int64_t data = rdm_reply_size(class, pid, transaction, key, bytes, size);
    if (kind < 0 || data < 0) {
        sprintf(answer, kind == data ? "! %" PRId64 : "kind and size disagree: %" PRId64, -kind);
        return;
    }
    int text = sprintf(answer, "%s %d ", kind == KIMARULEN_YES ? "yes" : "no", KIMARULEN_REPLY_DATA);
    show_bytes(bytes + KIMARULEN_REPLY_DATA, (size_t)data, answer + text);
}

static void answer_branch(const struct request *request, char *answer)
{
    uint8_t bytes[BYTES_SIZE];
    size_t size = read_bytes(request->field[1], bytes);
    int64_t key = rdm_read_branch_reply(bytes, size);
    if (key < 0)
        sprintf(answer, "! %" PRId64, -key);
    else
        sprintf(answer, "%012" PRIX64, (uint64_t)key);
}

static void answer_request(const struct request *request, char *answer)
{
    if (strcmp(request->field[0], "reply") == 0)
        answer_reply(request, answer);
    else if (strcmp(request->field[0], "readbranch") == 0)
        answer_branch(request, answer);
    else
        answer_writing(request, answer);
}

struct fixed_frame {
    int64_t (*write)(uint8_t *buf, size_t room);
    uint8_t bytes[2];
};

/* The DALI frames that no request names. Each is written into two bytes, and refused in one. */
static unsigned count_wrong_fixed_frames(void)
{
    static const struct fixed_frame frames[] = {
        {dali_write_terminate, {0xA1, 0x00}},           {dali_write_initialise, {0xA5, 0x00}},
        {dali_write_compare, {0xA9, 0x00}},             {dali_write_withdraw, {0xAB, 0x00}},
        {dali_write_query_short_address, {0xBB, 0x00}}, {dali_write_delete, {0xB7, 0xFF}},
    };
    unsigned wrong = 0;
    for (size_t i = 0; i < sizeof frames / sizeof frames[0]; i++) {
        uint8_t buf[3] = {UNTOUCHED, UNTOUCHED, UNTOUCHED};
        int refused = frames[i].write(buf, 1) == -KIMARULEN_BUFFER_TOO_SHORT && buf[0] == UNTOUCHED;
        int written = frames[i].write(buf, 2) == 2 && memcmp(buf, frames[i].bytes, 2) == 0;
        if (!refused || !written || buf[2] != UNTOUCHED) {
            printf("wrong: fixed frame %zu\n", i);
            wrong++;
        }
    }
    return wrong;
}

/* Where the last ` = ` is: what cannot be read as a request may hold others. */
static char *find_sign(char *line)
{
    char *found = NULL;
    for (char *at = strstr(line, " = "); at != NULL; at = strstr(at + 1, " = "))
        found = at;
    return found;
}

int main(void)
{
    static char line[LINE_SIZE];
    static char request_text[LINE_SIZE];
    static char answer[ANSWER_SIZE];
    unsigned right = 0;
    unsigned wrong = count_wrong_fixed_frames();
    unsigned skipped = 0;
    while (fgets(line, sizeof line, stdin) != NULL) {
        line[strcspn(line, "\n")] = 0;
        char *sign = find_sign(line);
        if (sign == NULL || strcmp(sign, " = ?") == 0) {
            skipped++;
            continue;
        }
        const char *expected = sign + 3;
        memcpy(request_text, line, (size_t)(sign - line));
        request_text[sign - line] = 0;
        struct request request = split(request_text);
        answer_request(&request, answer);
        if (strcmp(answer, expected) == 0) {
            right++;
        } else {
            printf("wrong: %s\n  answered: %s\n", line, answer);
            wrong++;
        }
    }
    printf("%u right, %u wrong, %u no requests\n", right, wrong, skipped);
    return wrong == 0 && right > 0 ? 0 : 1;
}
