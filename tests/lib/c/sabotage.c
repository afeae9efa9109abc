/* Loaded before the C library: it changes what the program writes, and a little of what it does, as the sabotage that SABOTAGE
   names has it. tests/lib/sabotage/listed.py says what each of them is. */
#define _GNU_SOURCE
#include <dlfcn.h>
#include <errno.h>
#include <stdint.h>
#include <stdio.h>
#include <stdlib.h>
#include <string.h>
#include <sys/mman.h>
#include <sys/socket.h>
#include <sys/stat.h>
#include <sys/syscall.h>
#include <sys/uio.h>
#include <sys/un.h>
#include <time.h>
#include <unistd.h>

#define DESCRIPTORS 4096

/* Bytes that are about to be written, in a copy with room for as many more. */
struct text {
    char *bytes;
    size_t size;
};

/* Where a descriptor leads. */
enum end { OUTPUT, ERRORS, LOCAL, REMOTE, PLAIN_FILE, NOTIFICATION };

static const char *sabotage(void)
{
    const char *name = getenv("SABOTAGE");
    return name != NULL ? name : "";
}

static int is(const char *name)
{
    return strcmp(sabotage(), name) == 0;
}

static enum end end_of(int file)
{
    struct stat about;
    int domain = 0, kind = 0;
    socklen_t size = sizeof domain;
    if (file == 1)
        return OUTPUT;
    if (file == 2)
        return ERRORS;
    if (getsockopt(file, SOL_SOCKET, SO_DOMAIN, &domain, &size) == 0) {
        size = sizeof kind;
        getsockopt(file, SOL_SOCKET, SO_TYPE, &kind, &size);
        return domain != AF_UNIX ? REMOTE : kind == SOCK_DGRAM ? NOTIFICATION : LOCAL;
    }
    return fstat(file, &about) == 0 && S_ISREG(about.st_mode) ? PLAIN_FILE : OUTPUT;
}

static char *found(struct text text, const char *words)
{
    return memmem(text.bytes, text.size, words, strlen(words));
}

static char *after(struct text text, const char *words)
{
    char *at = found(text, words);
    return at != NULL ? at + strlen(words) : NULL;
}

static char *end_of_line(struct text text, char *at)
{
    char *end = memchr(at, '\n', (size_t)(text.bytes + text.size - at));
    return end != NULL ? end + 1 : text.bytes + text.size;
}

static void remove_bytes(struct text *text, char *from, char *to)
{
    memmove(from, to, (size_t)(text->bytes + text->size - to));
    text->size -= (size_t)(to - from);
}

static void replace(struct text *text, const char *words, const char *others)
{
    char *at = found(*text, words);
    if (at != NULL)
        memcpy(at, others, strlen(others));
}

static int is_digit(char byte)
{
    return byte >= '0' && byte <= '9';
}

/* Turns the last digit behind these words into the next one, on their line. */
static void turn_digit(struct text text, const char *words)
{
    char *at = after(text, words);
    if (at == NULL)
        return;
    for (char *here = end_of_line(text, at) - 1; here >= at; here--)
        if (is_digit(*here)) {
            *here = *here == '9' ? '0' : (char)(*here + 1);
            return;
        }
}

/* Turns the first digit behind these words into the next one. */
static void turn_number(struct text text, const char *words)
{
    char *at = after(text, words);
    while (at != NULL && at < text.bytes + text.size && *at != '\n' && !is_digit(*at))
        at++;
    if (at != NULL && at < text.bytes + text.size && is_digit(*at))
        *at = *at == '9' ? '1' : (char)(*at + 1);
}

/* Removes each line that begins with these words, or the last of them alone. */
static void remove_lines(struct text *text, const char *words, int last_alone)
{
    size_t length = strlen(words);
    char *last = NULL;
    for (char *line = text->bytes; line < text->bytes + text->size;) {
        int begins = (size_t)(text->bytes + text->size - line) >= length && memcmp(line, words, length) == 0;
        if (begins && !last_alone) {
            remove_bytes(text, line, end_of_line(*text, line));
            continue;
        }
        last = begins ? line : last;
        line = end_of_line(*text, line);
    }
    if (last_alone && last != NULL)
        remove_bytes(text, last, end_of_line(*text, last));
}

/* Writes the number behind these words as it was at first, as wide as it is now. */
static void keep_number(struct text text, const char *words)
{
    static long first = -1;
    char digits[24], *at = after(text, words);
    int width = 0;
    while (at != NULL && at + width < text.bytes + text.size && width < 20 && is_digit(at[width]))
        width++;
    if (width == 0)
        return;
    first = first < 0 ? atol(at) : first;
    snprintf(digits, sizeof digits, "%0*ld", width, first);
    memcpy(at, digits, (size_t)width);
}

static void swap_verdict(struct text text)
{
    for (char *line = text.bytes; line < text.bytes + text.size; line = end_of_line(text, line)) {
        char *end = end_of_line(text, line);
        if (end - line > 12 && memcmp(line, "open ", 5) == 0)
            memcpy(end - 7, memcmp(end - 7, "accept", 6) == 0 ? "reject" : "accept", 6);
    }
}

/* Has the first two rows after a head change places. */
static void swap_rows(struct text text)
{
    char *first = end_of_line(text, text.bytes), *second = end_of_line(text, first), *third = end_of_line(text, second);
    if (found(text, " use exp") == NULL || second - first != third - second)
        return;
    for (; first < second && third > second; first++) {
        char byte = *first;
        *first = first[third - second];
        first[third - second] = byte;
    }
}

static void change_output(struct text *text)
{
    if (is("a verdict is swapped"))
        swap_verdict(*text);
    if (is("a word of the help is another"))
        replace(text, "Print help", "Print hulp");
    if (is("the version is another"))
        turn_number(*text, "stickd 0.");
    if (is("the end line has one reference"))
        replace(text, " calls, 0 references", " calls, 1 references");
    if (is("the end line has no reference"))
        replace(text, " calls, 1 references", " calls, 0 references");
    if (is("the end line is fixed") && found(*text, "settled www: ") == text->bytes)
        text->size = (size_t)sprintf(text->bytes, "settled www: 7 calls, 0 references\n");
    if (is("a row of top is in another's place"))
        swap_rows(*text);
    if (is("a digit of JSON is another") && text->size > 1 && (text->bytes[0] == '{' || text->bytes[0] == '['))
        turn_number(*text, "\"gpc0\":");
    if (is("a line that was adopted is lost"))
        remove_lines(text, "    server ", 1);
}

static void change_errors(struct text *text)
{
    if (is("standard error is dropped"))
        text->size = 0;
    if (is("warnings are dropped"))
        remove_lines(text, "<4>stickd: warning:", 0);
    if (is("explanations are dropped"))
        remove_lines(text, "  ", 0);
    if (is("the line of a fault is another"))
        turn_number(*text, "stickd: line ");
    if (is("a report counts another number"))
        replace(text, "1 accepted", "2 accepted");
}

static void change_answer(struct text *text)
{
    if (is("an answer of the socket is late"))
        nanosleep(&(struct timespec){1, 500000000}, NULL);
    if (is("an answer of the socket is cut") && text->size > 1)
        text->size--;
    if (is("a listing of the socket lacks a row"))
        remove_lines(text, "0x", 1);
    if (is("a front end is said to have stopped"))
        replace(text, ",OPEN,", ",STOP,");
    if (is("current connections are shown as none"))
        for (char *at = found(*text, "conn_cur="); at != NULL && at + 9 < text->bytes + text->size;) {
            for (at += 9; is_digit(*at); at++)
                *at = '0';
            at = memmem(at, (size_t)(text->bytes + text->size - at), "conn_cur=", 9);
        }
}

static void change(int file, struct text *text)
{
    enum end end = end_of(file);
    if (end == OUTPUT)
        change_output(text);
    if (end == ERRORS)
        change_errors(text);
    if (end == LOCAL)
        change_answer(text);
    if ((end == OUTPUT && is("a digit of a listing is another")) || (end == LOCAL && is("a digit of a listing of the socket is another")))
        turn_digit(*text, "0x");
    if (end == REMOTE && is("a metric keeps its first value"))
        keep_number(*text, "\nstickd_connections_accepted_total ");
    if (end == REMOTE && is("a byte that is relayed is another") && text->size > 1)
        text->bytes[text->size - 1] ^= 1;
    if (end == PLAIN_FILE && is("a row that is saved is lost"))
        remove_lines(text, "", 1);
    if (end == NOTIFICATION && is("the manager is not told that it is ready"))
        replace(text, "READY=1", "READY=0");
}

/* Writes the changed bytes by one of the system's calls. Where all of them went, all that was to be written did. */
static ssize_t write_changed(int file, const struct iovec *parts, size_t count, const struct msghdr *message, int flags)
{
    size_t size = 0, at = 0;
    for (size_t part = 0; part < count; part++)
        size += parts[part].iov_len;
    size_t room = 2 * size + 4096;
    char *copy = mmap(NULL, room, PROT_READ | PROT_WRITE, MAP_PRIVATE | MAP_ANONYMOUS, -1, 0);
    if (copy == MAP_FAILED) {
        errno = ENOMEM;
        return -1;
    }
    for (size_t part = 0; part < count; at += parts[part++].iov_len)
        memcpy(copy + at, parts[part].iov_base, parts[part].iov_len);
    struct text text = {copy, size};
    change(file, &text);
    ssize_t written = 0;
    if (text.size > 0 && message != NULL) {
        struct iovec whole = {text.bytes, text.size};
        struct msghdr changed = *message;
        changed.msg_iov = &whole;
        changed.msg_iovlen = 1;
        written = syscall(SYS_sendmsg, file, &changed, flags);
    } else if (text.size > 0) {
        written = syscall(SYS_write, file, text.bytes, text.size);
    }
    int error = errno;
    munmap(copy, room);
    errno = error;
    return written == (ssize_t)text.size ? (ssize_t)size : written < (ssize_t)size ? written : (ssize_t)size;
}

ssize_t write(int file, const void *bytes, size_t size)
{
    struct iovec part = {(void *)bytes, size};
    return write_changed(file, &part, 1, NULL, 0);
}

ssize_t writev(int file, const struct iovec *parts, int count)
{
    return write_changed(file, parts, (size_t)count, NULL, 0);
}

ssize_t sendto(int file, const void *bytes, size_t size, int flags, const struct sockaddr *to, socklen_t length)
{
    struct iovec part = {(void *)bytes, size};
    struct msghdr message = {.msg_name = (void *)to, .msg_namelen = length};
    return write_changed(file, &part, 1, &message, flags);
}

ssize_t send(int file, const void *bytes, size_t size, int flags)
{
    return sendto(file, bytes, size, flags, NULL, 0);
}

ssize_t sendmsg(int file, const struct msghdr *message, int flags)
{
    return write_changed(file, message->msg_iov, message->msg_iovlen, message, flags);
}

/* When each client of the command socket was accepted, in ms. */
static int64_t accepted_at[DESCRIPTORS];

static int64_t now(void)
{
    struct timespec time;
    clock_gettime(CLOCK_MONOTONIC, &time);
    return (int64_t)time.tv_sec * 1000 + time.tv_nsec / 1000000;
}

int accept4(int listener, struct sockaddr *address, socklen_t *length, int flags)
{
    static int count;
    int client = (int)syscall(SYS_accept4, listener, address, length, flags);
    if (client < 0 || client >= DESCRIPTORS)
        return client;
    accepted_at[client] = now();
    if (end_of(client) == REMOTE && is("a client of fifty is lost") && __atomic_add_fetch(&count, 1, __ATOMIC_SEQ_CST) % 50 == 0)
        shutdown(client, SHUT_RDWR);
    return client;
}

static int has_had_its_time(int file)
{
    return file >= 0 && file < DESCRIPTORS && is("who asks is closed all the same") && end_of(file) == LOCAL && accepted_at[file] != 0
        && now() > accepted_at[file] + 400;
}

ssize_t read(int file, void *bytes, size_t size)
{
    return has_had_its_time(file) ? 0 : syscall(SYS_read, file, bytes, size);
}

ssize_t recv(int file, void *bytes, size_t size, int flags)
{
    return has_had_its_time(file) ? 0 : syscall(SYS_recvfrom, file, bytes, size, flags, NULL, NULL);
}

int listen(int listener, int backlog)
{
    struct sockaddr_un address = {0};
    socklen_t length = sizeof address - 1;
    int answer = (int)syscall(SYS_listen, listener, backlog);
    if (is("anybody may use the command socket") && getsockname(listener, (struct sockaddr *)&address, &length) == 0
        && address.sun_family == AF_UNIX)
        chmod(address.sun_path, 0666);
    return answer;
}

int unlink(const char *path)
{
    return is("the socket's file is left behind") ? 0 : (int)syscall(SYS_unlink, path);
}

static int changed_status(int status)
{
    return is("the status is always 0") ? 0 : status;
}

__attribute__((destructor)) static void end(void)
{
    if (is("the status is always 0"))
        syscall(SYS_exit_group, 0);
}

void _exit(int status)
{
    void (*next)(int) = (void (*)(int))dlsym(RTLD_NEXT, "_exit");
    next(changed_status(status));
    __builtin_unreachable();
}
