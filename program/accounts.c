/* What the positions of a run asked and what became of it, by the verdicts of their rows. */
#include "run.h"

#include <string.h>

struct account {
    unsigned rows, requests, sends, well, silent, damaged, wrong_kind, refused;
    const struct shown *first, *last; /* of the answers to reads that count */
    int waits;                        /* nothing has decided the last send */
};

/* A send that nothing heard has decided when the next one begins, or the run ends, met silence. */
static void end_send(struct account *account)
{
    account->silent += account->waits != 0;
    account->waits = 0;
}

static void count_sent(struct account *account, const struct shown *shown)
{
    unsigned verdict = shown->verdict.verdict;
    end_send(account);
    account->refused += verdict == SKARROWITH_VERDICT_REFUSED;
    account->requests += verdict == SKARROWITH_VERDICT_FIRST_SEND;
    account->waits = verdict != SKARROWITH_VERDICT_REFUSED;
    account->sends += account->waits != 0;
}

/* What counts, is damaged or of the wrong kind decides a send; a late answer leaves it silent, and the others have no part. */
static void count_heard(struct account *account, const struct shown *shown)
{
    unsigned verdict = shown->verdict.verdict;
    int counts = verdict == SKARROWITH_VERDICT_COUNTS;
    account->well += counts;
    account->damaged += verdict == SKARROWITH_VERDICT_DAMAGED;
    account->wrong_kind += verdict == SKARROWITH_VERDICT_WRONG_KIND;
    if (counts || verdict == SKARROWITH_VERDICT_DAMAGED || verdict == SKARROWITH_VERDICT_WRONG_KIND)
        account->waits = 0;
    if (counts && has_data(shown)) {
        account->last = shown;
        if (account->first == NULL)
            account->first = shown;
    }
}

static void take_accounts(const struct run *run, struct account *accounts)
{
    for (size_t i = 0; i < run->count; i++) {
        const struct shown *shown = &run->rows[i];
        struct account *account = &accounts[shown->row.position];
        account->rows++;
        if (shown->verdict.verdict == SKARROWITH_VERDICT_WAKE)
            continue;
        if (shown->row.direction == SKARROWITH_SENT)
            count_sent(account, shown);
        else
            count_heard(account, shown);
    }
    for (unsigned p = 0; p <= POSITIONS_MOST; p++)
        end_send(&accounts[p]);
}

/* The rise of energy or volume between two answers; they are never below 0, so that the difference is a number of 64 bits. */
static void put_rise(char *out, const struct account *account, uint8_t quantity)
{
    struct skarrowith_meaning from, to;
    const struct skarrowith_entry *first, *last;
    out[0] = '\0';
    if (account->first == account->last)
        return;
    first = entry_of(account->first, quantity, &from);
    last = entry_of(account->last, quantity, &to);
    if (account->first->telegram.number != account->last->telegram.number)
        snprintf(out, WORDS_MOST, "another meter");
    else if (first == NULL || last == NULL || first->unit != last->unit)
        snprintf(out, WORDS_MOST, "another unit");
    else
        put_scaled(out, last->value.count - first->value.count, &to);
}

/* The number of an answer's row. */
static void put_answer(char *out, const struct run *run, const struct shown *answer)
{
    out[0] = '\0';
    if (answer != NULL)
        snprintf(out, WORDS_MOST, "%zu", (size_t)(answer - run->rows));
}

enum { ACCOUNT_COLUMNS = 13 };

static const struct column columns[ACCOUNT_COLUMNS] = {
    {"position", 8},    {"rows", 4},    {"requests", 8},      {"sends", 5},        {"well", 4},         {"silent", 6},      {"damaged", 7},
    {"wrong kind", 10}, {"refused", 7}, {"first answer", 12}, {"last answer", 11}, {"volume rise", 14}, {"energy rise", 0},
};

static void account_fields(const struct run *run, const struct account *a, unsigned position, field *fields)
{
    const unsigned numbers[] = {position, a->rows, a->requests, a->sends, a->well, a->silent, a->damaged, a->wrong_kind, a->refused};
    for (size_t i = 0; i < sizeof numbers / sizeof numbers[0]; i++)
        snprintf(fields[i], WORDS_MOST, "%u", numbers[i]);
    put_answer(fields[9], run, a->first);
    put_answer(fields[10], run, a->last);
    put_rise(fields[11], a, SKARROWITH_VOLUME);
    put_rise(fields[12], a, SKARROWITH_ENERGY);
}

void print_accounts(const struct run *run, int csv)
{
    static struct account accounts[POSITIONS_MOST + 1];
    field fields[ACCOUNT_COLUMNS];
    memset(accounts, 0, sizeof accounts);
    take_accounts(run, accounts);
    print_headings(csv, ACCOUNT_COLUMNS, columns);
    for (unsigned p = 1; p <= POSITIONS_MOST; p++)
        if (accounts[p].rows != 0) {
            account_fields(run, &accounts[p], p, fields);
            print_fields(csv, ACCOUNT_COLUMNS, columns, fields);
        }
}
