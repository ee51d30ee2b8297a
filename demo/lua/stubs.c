/* What picolibc leaves to the board: its standard streams and the calls of a system, for a board with a UART, a
 * finisher and the bytes of one file in memory. There are no processes, no clock of the day and no other files, and a
 * call for one of these fails as POSIX says. The UART is polled: a program that does not read for a while loses what
 * comes then.
 *
 * Define FILE_NAME and FILE_AT, if the firmware reads a file: a script puts it there, with a byte 0 behind it, as
 * memory is at first. MIPS is the PerformanceInMips of the processor. */
#include <errno.h>
#include <fcntl.h>
#include <signal.h>
#include <stdint.h>
#include <stdio.h>
#include <string.h>
#include <sys/time.h>
#include <sys/times.h>
#include <unistd.h>

#define UART ((volatile uint8_t *)0x10000000)
#define LSR 5
#define LSR_DATA 0x01
#define LSR_EMPTY 0x20
#define FINISHER (*(volatile uint32_t *)0x100000)

#ifndef FILE_NAME
#define FILE_NAME ""
#define FILE_AT ""
#endif
#ifndef MIPS
#define MIPS 1
#endif
#define FILE_NUMBER 3 /* after those of the standard streams */

static off_t position; /* in the file */
static int is_open;

static int put(char c, FILE *file)
{
    (void)file;
    while (!(UART[LSR] & LSR_EMPTY)) {
    }
    UART[0] = c;
    return (unsigned char)c;
}

static int get(FILE *file)
{
    (void)file;
    while (!(UART[LSR] & LSR_DATA)) {
    }
    return UART[0];
}

static FILE uart = FDEV_SETUP_STREAM(put, get, NULL, _FDEV_SETUP_RW);
FILE *const stdin = &uart;
FILE *const stdout = &uart;
FILE *const stderr = &uart;

static int fails_with(int cause)
{
    errno = cause;
    return -1;
}

static int is_stream(int number)
{
    return number >= STDIN_FILENO && number <= STDERR_FILENO;
}

static int is_file(int number)
{
    return number == FILE_NUMBER && is_open;
}

int open(const char *name, int how, ...)
{
    if (FILE_NAME[0] == 0 || strcmp(name, FILE_NAME) != 0)
        return fails_with(ENOENT);
    if ((how & O_ACCMODE) != O_RDONLY)
        return fails_with(EROFS);
    if (is_open)
        return fails_with(EMFILE);
    is_open = 1;
    position = 0;
    return FILE_NUMBER;
}

int close(int number)
{
    if (is_file(number))
        is_open = 0;
    else if (!is_stream(number))
        return fails_with(EBADF);
    return 0;
}

ssize_t read(int number, void *to, size_t size)
{
    if (is_stream(number)) {
        if (size > 0)
            *(char *)to = get(NULL);
        return size > 0;
    }
    if (!is_file(number))
        return fails_with(EBADF);
    size_t length = strnlen((const char *)FILE_AT + position, size);
    memcpy(to, (const char *)FILE_AT + position, length);
    position += length;
    return length;
}

ssize_t write(int number, const void *from, size_t size)
{
    if (!is_stream(number))
        return fails_with(EBADF);
    for (size_t place = 0; place < size; place++)
        put(((const char *)from)[place], NULL);
    return size;
}

off_t lseek(int number, off_t offset, int whence)
{
    off_t length, wanted;
    if (is_stream(number))
        return fails_with(ESPIPE);
    if (!is_file(number))
        return fails_with(EBADF);
    length = strlen((const char *)FILE_AT);
    wanted = offset + (whence == SEEK_END ? length : whence == SEEK_CUR ? position : 0);
    if (wanted < 0 || wanted > length)
        return fails_with(EINVAL);
    return position = wanted;
}

int isatty(int number)
{
    return is_stream(number) ? 1 : fails_with(is_file(number) ? ENOTTY : EBADF);
}

int unlink(const char *name)
{
    return fails_with(FILE_NAME[0] && strcmp(name, FILE_NAME) == 0 ? EROFS : ENOENT);
}

int rename(const char *from, const char *to)
{
    (void)to;
    return unlink(from);
}

/* Microseconds since the board has begun, by the processor's cycles. */
static uint64_t microseconds(void)
{
    uint32_t high, low, again;
    do {
        __asm__ volatile("csrr %0, mcycleh; csrr %1, mcycle; csrr %2, mcycleh" : "=r"(high), "=r"(low), "=r"(again));
    } while (high != again);
    return (((uint64_t)high << 32) | low) / MIPS;
}

int gettimeofday(struct timeval *time, void *zone)
{
    (void)zone;
    time->tv_sec = microseconds() / 1000000;
    time->tv_usec = microseconds() % 1000000;
    return 0;
}

clock_t times(struct tms *used)
{
    memset(used, 0, sizeof *used);
    used->tms_utime = microseconds() * CLOCKS_PER_SEC / 1000000;
    return used->tms_utime;
}

pid_t getpid(void)
{
    return 1;
}

/* Ends the run: 0 is `pass`, and another number N is `fail N`. */
void _exit(int status)
{
    FINISHER = status == 0 ? 0x5555 : (uint32_t)(status & 0xffff) << 16 | 0x3333;
    for (;;) {
    }
}

int kill(pid_t process, int number)
{
    if (process != getpid())
        return fails_with(ESRCH);
    _exit(128 + number);
}
