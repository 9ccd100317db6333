/*
 * One meter read over a serial port: 2400 baud, eight bits, even parity, one stop bit.
 *   serial PORT [ADDRESS]      ADDRESS is hexadecimal, FE for every meter where it is left out
 *
 * Parity. The port is set so that it passes every byte on and marks those that came with wrong parity; skarrowith_unmark makes
 * characters with the parity bit as it was received. A driver that does not take these settings drops the parity bit, so
 * the program does not go on without them. A pseudo-terminal has no parity: it takes no PARENB on Linux and marks nothing, so what
 * host/serial_test.c tries on one is everything but a real parity error.
 *
 * Times. They are counted in bit times of 1/2400 s from CLOCK_MONOTONIC, and at 2400 baud a character takes 11 of them. A driver
 * does not say when a line began. It says, by handing characters over, that they have ended: of k characters read at t the
 * first began at t - 11 k or before. That is what is passed on as the time of a line. It is late by as much as driver and
 * adapter held the characters back (up to 16 ms, 38 bit times, for many USB adapters; as long as nobody reads, for a buffer).
 * So this program throws away what lies in the buffer before it sends, reads what came while it was sending before it says that
 * the send has ended, and reads at once whatever comes. A line that began before the send ended is then stamped so, and the
 * exchange refuses it by 40. A line that was held back in the adapter over the end of the send would be stamped too late: no
 * driver's stamp can tell that; a stamp from the line itself can.
 */
#ifndef _POSIX_C_SOURCE
#define _POSIX_C_SOURCE 200809L
#endif
#include <skarrowith.h>

#include <errno.h>
#include <fcntl.h>
#include <poll.h>
#include <stdio.h>
#include <stdlib.h>
#include <string.h>
#include <termios.h>
#include <time.h>
#include <unistd.h>

/* How long a driver or adapter holds characters back at most must be known, or assumed: here the time of six, 27.5 ms. */
enum { CHARACTER = SKARROWITH_BIT_TIMES_PER_CHARACTER, HELD_BACK = 6 * CHARACTER, MOST = 512 };

/* What has come in: bytes that are not used yet, and the characters of one line with the time at which its first began. */
struct port {
    int fd;
    uint8_t bytes[MOST];
    uint16_t line[MOST];
    size_t waiting, count;
    uint64_t began, last, held_back;
    unsigned passed; /* lines that began before the send had ended */
};

/* ---- the clock, in bit times; a test has its own */

#ifdef SERIAL_CLOCK_OF_ITS_OWN
static uint64_t now_in_bits(void);
static int wait_for_bytes(int fd, uint64_t until);
#else
static uint64_t now_in_bits(void)
{
    struct timespec t;
    clock_gettime(CLOCK_MONOTONIC, &t);
    return (uint64_t)t.tv_sec * SKARROWITH_BIT_TIMES_PER_SECOND + (uint64_t)t.tv_nsec * 3 / 1250000;
}

/* Waits for bytes until a time; says whether there are some. */
static int wait_for_bytes(int fd, uint64_t until)
{
    struct pollfd p;
    uint64_t now = now_in_bits();
    p.fd = fd;
    p.events = POLLIN;
    return poll(&p, 1, now < until ? (int)((until - now) * 1000 / SKARROWITH_BIT_TIMES_PER_SECOND) + 1 : 0) > 0;
}
#endif

/* ---- the port */

/* Sets the port; answers what it did not take: nothing, or the names of settings. */
static const char *set_port(int fd)
{
    const tcflag_t input = INPCK | PARMRK, control = CS8 | PARENB | CREAD | CLOCAL;
    struct termios t;
    if (tcgetattr(fd, &t) != 0)
        return "is no terminal";
    t.c_iflag = input; /* so IGNPAR, IGNBRK, BRKINT, ISTRIP and every translation is clear */
    t.c_oflag = 0;
    t.c_lflag = 0;
    t.c_cflag = control; /* one stop bit, and even parity, since CSTOPB and PARODD are clear */
    t.c_cc[VMIN] = 0;
    t.c_cc[VTIME] = 0;
    cfsetispeed(&t, B2400);
    cfsetospeed(&t, B2400);
    if (tcsetattr(fd, TCSANOW, &t) != 0 || tcgetattr(fd, &t) != 0)
        return "takes no settings";
    if (t.c_iflag != input)
        return "takes no INPCK and PARMRK";
    if (cfgetispeed(&t) != B2400 || cfgetospeed(&t) != B2400 || (t.c_cflag & (CSIZE | CSTOPB)) != CS8)
        return "takes no 2400 baud with eight bits and one stop bit";
    if ((t.c_cflag & (PARENB | PARODD)) != PARENB)
        return "takes no even parity";
    return NULL;
}

/* Reads what is there, stamps it and makes characters of it; the beginning of a mark waits. Says whether something was there. */
static int take_bytes(struct port *p)
{
    uint64_t now = now_in_bits();
    size_t used, made;
    ssize_t got = read(p->fd, p->bytes + p->waiting, sizeof p->bytes - p->waiting);
    if (got <= 0)
        return 0;
    p->waiting += (size_t)got;
    skarrowith_unmark(p->bytes, p->waiting, p->line + p->count, MOST - p->count, &used, &made);
    p->waiting -= used;
    memmove(p->bytes, p->bytes + used, p->waiting);
    if (made > 0 && p->count == 0)
        p->began = now - CHARACTER * made;
    if (made > 0)
        p->last = now;
    p->count += made;
    return 1;
}

/* The first characters have been heard; the others came at the end of what was read last. */
static void drop_characters(struct port *p, size_t count)
{
    p->count -= count;
    memmove(p->line, p->line + count, p->count * sizeof p->line[0]);
    p->began = p->last - CHARACTER * p->count;
}

/* Forgets what came before now. */
static void forget(struct port *p)
{
    tcflush(p->fd, TCIFLUSH);
    p->waiting = p->count = 0;
}

/* Sends a line, whose parity bits the port makes; gives the time at which the send ended. */
static int send_line(struct port *p, const uint16_t *line, size_t count, uint64_t *ended)
{
    uint8_t bytes[SKARROWITH_LINE_MOST];
    uint64_t end = now_in_bits() + CHARACTER * count;
    for (size_t i = 0; i < count; i++)
        bytes[i] = (uint8_t)line[i];
    if (write(p->fd, bytes, count) != (ssize_t)count || tcdrain(p->fd) != 0)
        return 0;
    /* Some drivers say too early that all has been sent. */
    while (now_in_bits() < end)
        if (wait_for_bytes(p->fd, end))
            take_bytes(p);
    take_bytes(p);
    *ended = now_in_bits();
    return 1;
}

/* ---- the exchange */

/* Hears the first characters as a line. One that began before the send had ended does not count and is passed over. */
static uint32_t hear(struct port *p, size_t count, struct skarrowith_exchange *x, struct skarrowith_telegram *reply)
{
    uint32_t answer = skarrowith_exchange_heard(x, sizeof *x, p->line, count, p->began, reply, sizeof *reply);
    drop_characters(p, count);
    if (answer != SKARROWITH_REFUSED + SKARROWITH_EXCHANGE_TIME_BACK)
        return answer;
    p->passed++;
    return x->state;
}

/* When to wait no longer: past the window where nothing has begun; else when what has begun must be there. */
static uint64_t wait_until(const struct port *p, size_t length, const struct skarrowith_exchange *x)
{
    if (p->count == 0)
        return x->began + SKARROWITH_REPLY_TIME + 1 + p->held_back;
    return (length > p->count ? p->began + CHARACTER * length : p->last) + p->held_back;
}

/* Waits for the line that ends this send; answers how the exchange then stands, or a refusal. */
static uint32_t await_line(struct port *p, struct skarrowith_exchange *x, struct skarrowith_telegram *reply)
{
    uint32_t state = SKARROWITH_WAITING;
    while (state == SKARROWITH_WAITING) {
        size_t length = 0;
        int is_known = skarrowith_line_length(p->line, p->count, &length) == 0;
        uint64_t until = wait_until(p, length, x);
        if (is_known && length <= p->count)
            state = hear(p, length, x, reply);
        else if (p->count == MOST)
            state = hear(p, p->count, x, reply);
        else if (wait_for_bytes(p->fd, until) && take_bytes(p))
            continue;
        else if (now_in_bits() >= until)
            state = p->count > 0 ? hear(p, p->count, x, reply) : skarrowith_exchange_tick(x, sizeof *x, now_in_bits());
    }
    return state;
}

/* Runs one exchange over the port: up to three sends. Answers SKARROWITH_WELL, with the reply, or SKARROWITH_FAILED, or a refusal. */
static uint32_t run_exchange(struct port *p, uint8_t kind, uint8_t address, uint8_t method, struct skarrowith_exchange *x,
                             struct skarrowith_telegram *reply)
{
    uint16_t line[SKARROWITH_LINE_MOST];
    uint32_t count = skarrowith_write_request(kind, address, method, line, SKARROWITH_LINE_MOST), state = SKARROWITH_RESEND;
    uint64_t ended;
    memset(x, 0, sizeof *x); /* none yet */
    if (count >= SKARROWITH_REFUSED)
        return count;
    while (state == SKARROWITH_RESEND) {
        forget(p);
        if (!send_line(p, line, count, &ended))
            return SKARROWITH_FAILED;
        state = skarrowith_exchange_send_ended(x, sizeof *x, kind, address, method, ended);
        if (state == SKARROWITH_WAITING)
            state = await_line(p, x, reply);
    }
    return state;
}

int main(int argc, char **argv)
{
    static struct port p;
    struct skarrowith_exchange x;
    struct skarrowith_telegram reply;
    unsigned address = argc > 2 ? (unsigned)strtoul(argv[2], NULL, 16) : SKARROWITH_BROADCAST;
    const char *missing;
    if (argc < 2 || argc > 3 || address > 0xFF)
        return fprintf(stderr, "usage: serial PORT [ADDRESS]\n"), 2;
    p.held_back = HELD_BACK;
    p.fd = open(argv[1], O_RDWR | O_NOCTTY | O_NONBLOCK);
    if (p.fd < 0)
        return fprintf(stderr, "serial: %s: %s\n", argv[1], strerror(errno)), 1;
    missing = set_port(p.fd);
    if (missing != NULL)
        return fprintf(stderr, "serial: %s %s\n", argv[1], missing), 1;
    if (run_exchange(&p, SKARROWITH_READ, (uint8_t)address, 0, &x, &reply) != SKARROWITH_WELL)
        return printf("no answer that counts: %u sends, cause %u\n", x.sends, x.cause), 1;
    printf("meter %08lu at %02X, sends: %u, left-over lines passed over: %u\n", (unsigned long)reply.number, reply.address, x.sends,
           p.passed);
    return 0;
}
