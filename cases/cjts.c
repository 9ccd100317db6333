/* The cases of CJ/T 188, and its telegrams as words. */
#include "cjts.h"

#include "lines.h"
#include "telegrams.h"
#include "words.h"

#include "../second/cjt.h"

#include <inttypes.h>
#include <stdio.h>
#include <string.h>

static const char *const kinds[] = {"request", "answer"};
static const char *const numbers[] = {"cold", "heat", "power", "flow", "volume", "inlet", "outlet", "hours"};

static uint16_t characters[WORDS_MOST];

/* ---- telegrams */

static int take_to(unsigned *to, uint64_t most)
{
    uint64_t number = 0;
    int good = take(&number, most);
    *to = (unsigned)number;
    return good;
}

static int take_number(struct second_cjt *t, int which)
{
    uint64_t number;
    if (!take_name(numbers[which]) || !take(&number, UINT32_MAX))
        return 0;
    t->numbers[which] = (uint32_t)number;
    return which >= SECOND_CJT_CODES || take_to(&t->codes[which], 0xFF);
}

static int take_told(struct second_cjt *t)
{
    for (int which = 0; which < SECOND_CJT_NUMBERS; which++)
        if (!take_number(t, which))
            return 0;
    if (!take_name("clock"))
        return 0;
    for (int part = 0; part < SECOND_CJT_PARTS; part++)
        if (!take_to(&t->clock[part], part == 0 ? 0xFFFF : 0xFF))
            return 0;
    return take_name("state") && take_to(&t->state[0], 0xFF) && take_to(&t->state[1], 0xFF);
}

static int take_cjt(struct second_cjt *t)
{
    memset(t, 0, sizeof *t);
    t->kind = take_name(kinds[0]) ? SECOND_CJT_REQUEST : SECOND_CJT_ANSWER;
    if (t->kind == SECOND_CJT_ANSWER && !take_name(kinds[1]))
        return 0;
    if (!take_to(&t->type, 0xFF))
        return 0;
    t->is_broadcast = t->kind == SECOND_CJT_REQUEST && take_name("broadcast");
    if (!t->is_broadcast && (!take_name("meter") || !take(&t->address, UINT64_MAX)))
        return 0;
    if (!take_name("serial") || !take_to(&t->serial, 0xFF))
        return 0;
    return t->kind == SECOND_CJT_REQUEST || take_told(t);
}

static void say_cjt(const struct second_cjt *t)
{
    printf("%s %02X", kinds[t->kind - SECOND_CJT_REQUEST], t->type);
    if (t->is_broadcast)
        printf(" broadcast");
    else
        printf(" meter +%" PRIu64, t->address);
    printf(" serial %02X", t->serial);
    if (t->kind == SECOND_CJT_REQUEST)
        return;
    for (int which = 0; which < SECOND_CJT_NUMBERS; which++) {
        printf(" %s +%" PRIu32, numbers[which], t->numbers[which]);
        if (which < SECOND_CJT_CODES)
            printf(" %02X", t->codes[which]);
    }
    printf(" clock");
    for (int part = 0; part < SECOND_CJT_PARTS; part++)
        printf(" +%u", t->clock[part]);
    printf(" state %02X %02X", t->state[0], t->state[1]);
}

/* ---- cases */

int answer_cjtread(void)
{
    struct second_cjt t;
    size_t n;
    if (!take_characters(characters, &n) || !is_whole())
        return 0;
    if (!refused(second_cjt_read(characters, n, &t)))
        say_cjt(&t);
    return 1;
}

int answer_cjtwrite(void)
{
    struct second_cjt t;
    uint64_t places;
    size_t length = 0;
    if (!take(&places, PLACES_MOST) || !take_cjt(&t) || !is_whole())
        return 0;
    clear_places(characters, places);
    int refusal = second_cjt_write(&t, characters, (size_t)places, &length);
    say_places(refusal, length, characters, places);
    return 1;
}

int answer_cjtenergy(void)
{
    uint64_t count, number = 0;
    unsigned code, unit = 0;
    if (!take(&count, UINT32_MAX) || !take_to(&code, 0xFF) || !is_whole())
        return 0;
    if (!refused(second_cjt_energy((uint32_t)count, code, &unit, &number)))
        printf("entry 0E %02X number +%" PRIu64, unit, number);
    return 1;
}
