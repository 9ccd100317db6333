/*
 * examples/serial.c against a pseudo-terminal, with the simulated meter on the other end. The clock is the test's own, so that
 * nothing hangs on how fast the machine is: it goes on only where the example waits, and the meter's answer comes in at the time
 * at which the line would have it there, 11 bit times a character, in pieces of every size. A pseudo-terminal knows no parity, so
 * the marks are the test's, as termios(3) says; but for FF, whose mark the terminal makes itself where it is left to.
 */
#define _XOPEN_SOURCE 700
#define _DEFAULT_SOURCE
#define SERIAL_CLOCK_OF_ITS_OWN
#include <sys/ioctl.h>
#include <termios.h>

/* The line takes what is sent when the driver has sent it all. */
static int take_request(int fd);
#define tcdrain take_request
#define main serial_main
#include "../examples/serial.c"
#undef main
#undef tcdrain

#include "../second/example.h"
#include "../second/line.h"

enum { OWN = 5, REPLY_AFTER = 60, BYTES = 1000, PATIENCE = 10000 };

/* What the line does to the answer of each send. */
enum fate { GOOD, SILENT, WRONG_PARITY, BREAK, CUT, UNDOUBLED };

static struct {
    int master, slave;
    struct port port;
    uint64_t now;
    struct skarrowith_meter meter;
    struct skarrowith_telegram said; /* what the meter answered last */
    enum fate fates[3];
    unsigned sends;
    size_t piece, hit; /* bytes at once; the character that is damaged */
    uint8_t bytes[BYTES];
    uint64_t ends[BYTES]; /* the time at which each byte has come in */
    size_t count, given;
} t;

static const char *trial = "the terminal";

static void fail(const char *what)
{
    printf("serial_test: %s, pieces of %lu: %s\n", trial, (unsigned long)t.piece, what);
    exit(1);
}

static void expect(int holds, const char *what)
{
    if (!holds)
        fail(what);
}

/* ---- the line */

static void put_byte(unsigned byte, uint64_t end)
{
    expect(t.count < BYTES, "the line is too long");
    t.ends[t.count] = end;
    t.bytes[t.count++] = (uint8_t)byte;
}

/* One character as a port passes it on that marks wrong parity. */
static void put_marked(unsigned character, uint64_t end)
{
    unsigned ones = 0, byte = character % 256;
    for (unsigned rest = character; rest > 0; rest /= 2)
        ones += rest % 2;
    if (ones % 2 == 1 || byte == 0xFF)
        put_byte(0xFF, end);
    if (ones % 2 == 1)
        put_byte(0, end);
    put_byte(byte, end);
}

/* A line that begins at a time; what is damaged of it is by the fate. */
static void put_line(const uint16_t *line, size_t count, uint64_t begins, enum fate fate)
{
    for (size_t i = 0; i < (fate == CUT ? count - 10 : count); i++) {
        uint64_t end = begins + CHARACTER * (i + 1);
        unsigned character = line[i];
        if (fate == WRONG_PARITY && i == t.hit % count)
            character ^= 0x100;
        if (fate == BREAK && i == t.hit % count)
            character = 0x100;
        if (fate == UNDOUBLED && character == 0x0FF)
            put_byte(0xFF, end);
        else
            put_marked(character, end);
    }
}

/* Waits, as long as it takes, until so many bytes are there to be read. */
static void await_bytes(size_t n)
{
    int there = 0;
    for (int i = 0; i < PATIENCE && there < (int)n; i++) {
        expect(ioctl(t.slave, FIONREAD, &there) == 0, "the terminal does not say what is there");
        if (there < (int)n)
            poll(NULL, 0, 1);
    }
    expect(there == (int)n, "the terminal has other bytes than it was given");
}

/* Up to which byte the next piece goes: so many, or the last before a pause. */
static size_t piece_end(void)
{
    size_t end = t.given + 1;
    while (end < t.count && end - t.given < t.piece && t.ends[end] <= t.ends[end - 1] + CHARACTER)
        end++;
    return end;
}

static void give_piece(void)
{
    size_t end = piece_end(), n = end - t.given;
    if (t.now < t.ends[end - 1])
        t.now = t.ends[end - 1];
    expect(write(t.master, t.bytes + t.given, n) == (ssize_t)n, "the terminal takes no bytes");
    await_bytes(n);
    t.given = end;
}

static uint64_t now_in_bits(void)
{
    return t.now;
}

static int wait_for_bytes(int fd, uint64_t until)
{
    int there = 0;
    expect(ioctl(fd, FIONREAD, &there) == 0, "the terminal does not say what is there");
    if (there == 0 && t.given < t.count && t.ends[piece_end() - 1] <= until) {
        give_piece();
        return 1;
    }
    if (there == 0 && t.now < until)
        t.now = until;
    return there > 0;
}

/* Reads the request from the other end, hears it as the meter and puts the answer on the line. */
static int take_request(int fd)
{
    uint8_t bytes[10];
    uint16_t line[SKARROWITH_LINE_MOST], request[10];
    size_t n = 0, whole = 5;
    struct pollfd p = {t.master, POLLIN, 0};
    uint64_t end;
    (void)fd;
    while (n < whole) {
        expect(poll(&p, 1, PATIENCE) > 0, "the request does not come out at the other end");
        ssize_t got = read(t.master, bytes + n, whole - n);
        expect(got > 0, "the request is not to be read");
        n += (size_t)got;
        whole = bytes[0] == 0x68 ? 10 : 5;
    }
    for (size_t i = 0; i < n; i++)
        request[i] = second_character(bytes[i]);
    end = t.now + CHARACTER * n;
    expect(t.sends < 3, "there is a fourth send");
    enum fate fate = t.fates[t.sends++];
    uint32_t said = skarrowith_meter_heard(&t.meter, sizeof t.meter, request, n, end, &t.said, sizeof t.said);
    expect(said == SKARROWITH_ACK || said == SKARROWITH_DATA, "the meter does not answer the request");
    uint32_t count = skarrowith_write_line(&t.said, sizeof t.said, line, SKARROWITH_LINE_MOST);
    expect(count < SKARROWITH_REFUSED, "the answer cannot be written");
    if (fate != SILENT)
        put_line(line, count, end + REPLY_AFTER, fate);
    return 0;
}

/* ---- the trials */

/* A new meter whose answers have FF in them, an empty line, and these fates. */
static void begin(const char *name, size_t piece, enum fate first, enum fate second, enum fate third)
{
    uint16_t line[SECOND_EXAMPLE];
    struct skarrowith_telegram data;
    trial = name;
    t.piece = piece;
    t.port.held_back = HELD_BACK + CHARACTER * piece; /* since pieces are whole before they come */
    t.sends = 0;
    t.fates[0] = first, t.fates[1] = second, t.fates[2] = third;
    t.count = t.given = 0;
    t.port.passed = 0;
    t.now += 100000;
    second_example_line(line);
    expect(skarrowith_read_line(line, SECOND_EXAMPLE, &data, sizeof data) == SKARROWITH_DATA, "no template");
    data.version = data.status = 0xFF;
    expect(skarrowith_meter_set_up(&t.meter, sizeof t.meter, OWN, &data, sizeof data) == 0, "no meter");
}

/* Runs the exchange: it ends in this state after so many sends, and where it ends well by what the meter said last. */
static void run(uint8_t kind, uint32_t state, unsigned sends, unsigned cause)
{
    struct skarrowith_exchange x;
    struct skarrowith_telegram reply;
    uint32_t got = run_exchange(&t.port, kind, OWN, kind == SKARROWITH_ENTER ? SKARROWITH_START_STOP : 0, &x, &reply);
    expect(got == state, "the exchange ends otherwise");
    expect(x.sends == sends && t.sends == sends, "another number of sends");
    expect(x.cause == cause, "another cause");
    if (state == SKARROWITH_WELL)
        expect(memcmp(&reply, &t.said, sizeof reply) == 0, "the reply is not what the meter said");
}

/* An answer of some other question: that of a meter with another number. */
static size_t other_answer(uint16_t *line)
{
    struct skarrowith_telegram other;
    second_example_line(line);
    expect(skarrowith_read_line(line, SECOND_EXAMPLE, &other, sizeof other) == SKARROWITH_DATA, "no other answer");
    other.number = 87654321;
    other.address = OWN;
    return skarrowith_write_line(&other, sizeof other, line, SKARROWITH_LINE_MOST);
}

/* It lies in the buffer before anything is sent. */
static void left_over_at_the_start(size_t piece)
{
    uint16_t line[SKARROWITH_LINE_MOST];
    begin("a left-over answer in the buffer", BYTES, GOOD, GOOD, GOOD);
    put_line(line, other_answer(line), t.now, GOOD);
    give_piece();
    t.piece = piece;
    run(SKARROWITH_READ, SKARROWITH_WELL, 1, 0);
    expect(t.port.passed == 0, "what was thrown away is passed over");
}

/* Its last characters come in while the request is being sent, and the first ones too where a piece is that long. */
static void left_over_in_the_send(size_t piece)
{
    uint16_t line[SKARROWITH_LINE_MOST];
    size_t count = other_answer(line);
    begin("a left-over answer while sending", piece, GOOD, GOOD, GOOD);
    put_line(line, count, t.now + 2 * CHARACTER - CHARACTER * count, GOOD);
    run(SKARROWITH_READ, SKARROWITH_WELL, 1, 0);
    expect(t.port.passed == 1, "the left-over answer is not passed over");
}

static void try_pieces(size_t piece)
{
    begin("a read", piece, GOOD, GOOD, GOOD);
    run(SKARROWITH_READ, SKARROWITH_WELL, 1, 0);
    begin("an enter", piece, GOOD, GOOD, GOOD);
    run(SKARROWITH_ENTER, SKARROWITH_WELL, 1, 0);
    begin("silence once", piece, SILENT, GOOD, GOOD);
    run(SKARROWITH_READ, SKARROWITH_WELL, 2, 0);
    begin("silence", piece, SILENT, SILENT, SILENT);
    run(SKARROWITH_READ, SKARROWITH_FAILED, 3, SKARROWITH_SILENT);
    begin("wrong parity once", piece, WRONG_PARITY, GOOD, GOOD);
    t.hit = piece;
    run(SKARROWITH_READ, SKARROWITH_WELL, 2, 0);
    begin("a break twice", piece, BREAK, BREAK, GOOD);
    t.hit = 3 * piece;
    run(SKARROWITH_READ, SKARROWITH_WELL, 3, 0);
    begin("an answer cut short", piece, CUT, CUT, CUT);
    run(SKARROWITH_READ, SKARROWITH_FAILED, 3, SKARROWITH_DAMAGED);
    begin("FF that comes once", piece, UNDOUBLED, UNDOUBLED, UNDOUBLED);
    run(SKARROWITH_READ, SKARROWITH_FAILED, 3, SKARROWITH_DAMAGED);
    left_over_at_the_start(piece);
    left_over_in_the_send(piece);
}

/* ---- the terminal */

static void open_terminal(void)
{
    t.master = posix_openpt(O_RDWR | O_NOCTTY);
    if (t.master < 0 || grantpt(t.master) != 0 || unlockpt(t.master) != 0) {
        printf("serial_test: skipped, there are no pseudo-terminals here\n");
        exit(0);
    }
    t.slave = t.port.fd = open(ptsname(t.master), O_RDWR | O_NOCTTY | O_NONBLOCK);
    expect(t.slave >= 0, "the other end cannot be opened");
}

/* The settings are taken, but for the parity, of which a pseudo-terminal has none; and it marks FF itself. */
static void try_settings(void)
{
    const char *missing = set_port(t.slave);
    size_t used, made;
    uint16_t characters[3];
    uint8_t bytes[3];
    expect(missing == NULL || strcmp(missing, "takes no even parity") == 0, missing);
    expect(write(t.master, "\377A", 2) == 2, "the terminal takes no bytes");
    await_bytes(3);
    expect(read(t.slave, bytes, 3) == 3 && memcmp(bytes, "\377\377A", 3) == 0, "the terminal does not mark FF");
    skarrowith_unmark(bytes, 3, characters, 3, &used, &made);
    expect(used == 3 && made == 2 && characters[0] == 0x0FF && characters[1] == 0x041, "the mark is not read back");
}

/* From here on the marks are the test's. */
static void mark_no_more(void)
{
    struct termios now;
    expect(tcgetattr(t.slave, &now) == 0, "the settings cannot be read");
    now.c_iflag &= ~(tcflag_t)PARMRK;
    expect(tcsetattr(t.slave, TCSANOW, &now) == 0, "the settings cannot be changed");
}

int main(void)
{
    enum { LONGEST = SECOND_EXAMPLE + 5 };
    open_terminal();
    try_settings();
    mark_no_more();
    for (size_t piece = 1; piece <= LONGEST; piece++)
        try_pieces(piece);
    printf("serial_test: %d exchanges over a pseudo-terminal end as they should, in pieces of 1 to %d bytes\n", 10 * LONGEST, LONGEST);
    printf("serial_test: real parity errors are not tried, a pseudo-terminal has none\n");
    return 0;
}
