/* Telegrams as words, and refusals. */
#include "telegrams.h"

#include "words.h"

#include <inttypes.h>
#include <stdio.h>
#include <string.h>

static const char *const kinds[] = {"ack", "read", "enter", "leave", "data"};

static int take_entry(struct second_entry *e)
{
    uint64_t structure, unit, part;
    if (!take(&structure, 0xFF) || !take(&unit, 0xFF))
        return 0;
    e->structure = (unsigned)structure;
    e->unit = (unsigned)unit;
    if (take_name("number"))
        return take_signed(&e->count);
    e->sort = SECOND_BINARY;
    if (take_name("binary"))
        return take_signed(&e->count);
    e->sort = SECOND_TIME;
    if (!take_name("time"))
        return 0;
    for (int i = 0; i < SECOND_PARTS; i++) {
        if (!take(&part, 0xFF))
            return 0;
        e->moment[i] = (unsigned)part;
    }
    return 1;
}

static int take_kind(enum second_kind *kind)
{
    for (int k = SECOND_ACK; k <= SECOND_DATA; k++)
        if (take_name(kinds[k])) {
            *kind = (enum second_kind)k;
            return 1;
        }
    return 0;
}

int take_telegram(struct second_telegram *t)
{
    static const uint64_t mosts[9] = {0xFF, 0xFF, 0xFFFFFFFF, 0xFFFF, 0xFF, 0xFF, 0xFF, 0xFF, UINT64_MAX};
    uint64_t fields[9];
    memset(t, 0, sizeof *t);
    if (!take_kind(&t->kind))
        return 0;
    for (int i = 0; i < 9; i++)
        if (!take_or_end(&fields[i], mosts[i]))
            return 0;
    t->address = (unsigned)fields[0];
    t->method = (unsigned)fields[1];
    t->number = (uint32_t)fields[2];
    t->maker = (unsigned)fields[3];
    t->version = (unsigned)fields[4];
    t->type = (unsigned)fields[5];
    t->access = (unsigned)fields[6];
    t->status = (unsigned)fields[7];
    t->count = fields[8];
    for (size_t i = 0; goes_on(); i++)
        if (i == SECOND_ENTRIES || !take_entry(&t->entries[i]))
            return 0;
    return 1;
}

int refused(int refusal)
{
    if (refusal != 0)
        printf("refused %d", refusal);
    return refusal != 0;
}

static void say_entry(const struct second_entry *e)
{
    printf(" %02X %02X", e->structure, e->unit);
    if (e->sort != SECOND_TIME) {
        printf(" %s %+" PRId64, e->sort == SECOND_BINARY ? "binary" : "number", e->count);
        return;
    }
    printf(" time");
    for (int i = 0; i < SECOND_PARTS; i++)
        printf(" +%u", e->moment[i]);
}

void say_telegram(const struct second_telegram *t)
{
    printf("%s", kinds[t->kind]);
    if (t->kind != SECOND_ACK)
        printf(" %02X", t->address);
    if (t->kind == SECOND_ENTER || t->kind == SECOND_DATA)
        printf(" %02X", t->method);
    if (t->kind != SECOND_DATA)
        return;
    printf(" +%" PRIu32 " %04X %02X %02X %02X %02X", t->number, t->maker, t->version, t->type, t->access, t->status);
    printf(" +%" PRIu64, t->count);
    for (size_t i = 0; i < t->count; i++)
        say_entry(&t->entries[i]);
}
