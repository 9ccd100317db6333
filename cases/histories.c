/* The cases of exchanges and simulated meters: a first pass sees that every step is one, a second answers them. */
#include "histories.h"

#include "telegrams.h"
#include "words.h"

#include "../second/exchange.h"
#include "../second/meter.h"

#include <inttypes.h>
#include <stdio.h>
#include <string.h>

static uint16_t characters[WORDS_MOST];

/* A step's name and how many numbers follow it; behind those of a line heard come its characters, of a send's end what was sent. */
struct shape {
    const char *name;
    size_t numbers;
};

struct step {
    const char *name;
    uint64_t numbers[3];
    size_t n;
    struct second_telegram sent;
};

static int is_step(const struct step *s, const char *name)
{
    return strcmp(s->name, name) == 0;
}

/* The next step, which has one of the shapes; a shape without a name ends them. */
static int take_step(const struct shape *shape, struct step *s)
{
    while (shape->name != NULL && !take_name(shape->name))
        shape++;
    if (shape->name == NULL)
        return 0;
    s->name = shape->name;
    for (size_t i = 0; i < shape->numbers; i++)
        if (!take(&s->numbers[i], UINT64_MAX))
            return 0;
    if (is_step(s, "ended"))
        return take_telegram(&s->sent);
    return !is_step(s, "heard") || take_characters(characters, &s->n);
}

static int is_history(const struct shape *shapes)
{
    struct step s;
    size_t first = next_place();
    while (!is_whole())
        if (!take_step(shapes, &s))
            return 0;
    go_back(first);
    return 1;
}

static void say_exchange(const struct second_exchange *x)
{
    static const char *const states[] = {"waiting", "resend", "well", "failed"};
    static const char *const causes[] = {" silent", " damaged", " wrong"};
    int failed = x->state == SECOND_RESEND || x->state == SECOND_FAILED;
    printf("%s%s +%u", states[x->state - SECOND_WAITING], failed ? causes[x->cause] : "", x->sends);
    printf(" +%" PRIu64 " +%" PRIu64, x->began, x->last);
}

static void step_exchange(struct second_exchange *x, const struct step *s)
{
    struct second_telegram reply;
    uint64_t t = s->numbers[0];
    int is_line = is_step(s, "heard"), refusal;
    if (is_line)
        refusal = second_heard(x, characters, s->n, t, &reply);
    else
        refusal = is_step(s, "tick") ? second_tick(x, t) : second_send_ended(x, &s->sent, t);
    if (refused(refusal))
        return;
    say_exchange(x);
    if (is_line && x->state == SECOND_WELL) {
        putchar(' ');
        say_telegram(&reply);
    }
}

int answer_exchange(void)
{
    static const struct shape shapes[] = {{"ended", 1}, {"heard", 1}, {"tick", 1}, {NULL, 0}};
    struct second_exchange x;
    struct step s;
    if (is_whole() || !is_history(shapes))
        return 0;
    second_no_exchange(&x);
    for (const char *between = ""; take_step(shapes, &s); between = " ") {
        printf("%s", between);
        step_exchange(&x, &s);
    }
    return 1;
}

static void say_meter(const struct second_meter *m)
{
    if (m->is_verifying)
        printf("verifying %02X +%" PRIu64, m->method, m->instructed);
    else
        printf("use");
    printf(" +%" PRIu64 " +%" PRIu64, m->use[0], m->use[1]);
    printf(" +%" PRIu64 " +%" PRIu64 " %02X", m->verification[0], m->verification[1], m->template.access);
}

static void step_meter(struct second_meter *m, const struct step *s)
{
    struct second_telegram answer;
    int does_answer = 0, refusal;
    if (is_step(s, "heard"))
        refusal = second_meter_heard(m, characters, s->n, s->numbers[0], &does_answer, &answer);
    else
        refusal = second_measure(m, s->numbers[0], s->numbers[1], s->numbers[2]);
    putchar(' ');
    if (refused(refusal))
        return;
    if (does_answer)
        say_telegram(&answer);
    else
        printf("silence");
    putchar(' ');
    say_meter(m);
}

int answer_meter(void)
{
    static const struct shape shapes[] = {{"heard", 1}, {"measure", 3}, {NULL, 0}};
    struct second_meter m;
    struct second_telegram template;
    struct step s;
    uint64_t address;
    if (!take_name("setup") || !take(&address, 0xFF) || !take_telegram(&template) || !is_history(shapes))
        return 0;
    if (refused(second_set_up(&m, (unsigned)address, &template)))
        return 1;
    say_meter(&m);
    while (take_step(shapes, &s))
        step_meter(&m, &s);
    return 1;
}
