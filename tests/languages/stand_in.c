/* Stands in for `debctl` in rows: passes its arguments, the three streams and the current folder to
 * the socket that DEBCTL_BESIDE names, where tests/languages/beside runs the program, and ends with
 * the status that it receives. If a stream is closed, the program that DEBCTL_PROGRAM names runs
 * alone. */
#define _GNU_SOURCE
#include <fcntl.h>
#include <stdint.h>
#include <stdio.h>
#include <stdlib.h>
#include <string.h>
#include <sys/socket.h>
#include <sys/un.h>
#include <unistd.h>

enum { STREAMS = 3, PASSED = STREAMS + 1, FAILED = 98 };

static void must(int is_done, const char *what) {
    if (!is_done) {
        perror(what);
        exit(FAILED);
    }
}

static const char *variable(const char *name) {
    const char *value = getenv(name);
    must(value != NULL, name);
    return value;
}

static int connected(void) {
    struct sockaddr_un address = {.sun_family = AF_UNIX};
    int to = socket(AF_UNIX, SOCK_STREAM | SOCK_CLOEXEC, 0);
    strncpy(address.sun_path, variable("DEBCTL_BESIDE"), sizeof address.sun_path - 1);
    must(connect(to, (struct sockaddr *)&address, sizeof address) == 0, "connect");
    return to;
}

/* Sends the length of the arguments, and with it the open files. */
static void send_files(int to, const int *files, uint32_t length) {
    char room[CMSG_SPACE(PASSED * sizeof *files)] = {0};
    struct iovec part = {&length, sizeof length};
    struct msghdr message = {.msg_iov = &part, .msg_iovlen = 1, .msg_control = room};
    struct cmsghdr *passed;
    message.msg_controllen = sizeof room;
    passed = CMSG_FIRSTHDR(&message);
    passed->cmsg_level = SOL_SOCKET;
    passed->cmsg_type = SCM_RIGHTS;
    passed->cmsg_len = CMSG_LEN(PASSED * sizeof *files);
    memcpy(CMSG_DATA(passed), files, PASSED * sizeof *files);
    must(sendmsg(to, &message, 0) == sizeof length, "sendmsg");
}

static void send_all(int to, const char *text, size_t length) {
    while (length > 0) {
        ssize_t sent = write(to, text, length);
        must(sent > 0, "write");
        text += sent;
        length -= (size_t)sent;
    }
}

int main(int count, char **words) {
    int files[PASSED] = {0, 1, 2, -1}, at, to;
    uint32_t length = 0;
    unsigned char status;
    for (at = 0; at < STREAMS; at++)
        if (fcntl(at, F_GETFD) < 0) {
            words[0] = "debctl";
            execv(variable("DEBCTL_PROGRAM"), words);
            return FAILED;
        }
    for (at = 1; at < count; at++)
        length += (uint32_t)strlen(words[at]) + 1;
    files[STREAMS] = open(".", O_RDONLY | O_DIRECTORY | O_CLOEXEC);
    must(files[STREAMS] >= 0, "open");
    to = connected();
    send_files(to, files, length);
    for (at = 1; at < count; at++)
        send_all(to, words[at], strlen(words[at]) + 1);
    must(read(to, &status, 1) == 1, "no status");
    return status;
}
