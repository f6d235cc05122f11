// What include/uapubsub_posix.h answers: files that are there, aren't there and are too long, a lock, and datagrams between two sockets.
// Its word is a folder of its own.
#define _DEFAULT_SOURCE
#include "uapubsub_posix.h"
#include <stdlib.h>
#include <sys/wait.h>

#define DEMAND(it) ((it) ? (void)0 : (fprintf(stderr, "posix.c:%d: %s\n", __LINE__, #it), exit(1)))

static uint16_t port_of(const struct uap_posix_udp *udp) {
    struct sockaddr_in own;
    socklen_t length = sizeof own;
    DEMAND(getsockname(udp->socket, (struct sockaddr *)&own, &length) == 0);
    return ntohs(own.sin_port);
}

static void files(void) {
    unsigned char bytes[100], got[100];
    size_t length = 1;
    memset(bytes, 7, sizeof bytes);
    DEMAND(uap_posix_read("state", got, sizeof got, &length) == ENOENT && length == 0);
    DEMAND(uap_posix_write("nowhere/state", bytes, sizeof bytes, 0600) == ENOENT);
    DEMAND(uap_posix_write("state", bytes, sizeof bytes, 0600) == 0);
    DEMAND(uap_posix_read("state", got, sizeof got, &length) == 0 && length == sizeof bytes && memcmp(got, bytes, length) == 0);
    DEMAND(uap_posix_read("state", got, 99, &length) == EFBIG);
    bytes[0] = 8;
    DEMAND(uap_posix_write("state", bytes, 3, 0600) == 0);
    DEMAND(uap_posix_read("./state", got, sizeof got, &length) == 0 && length == 3 && got[0] == 8);
    DEMAND(access("state.new", F_OK) != 0);
}

static void lock(void) {
    int status;
    DEMAND(uap_posix_lock("state.lock") == 0);
    pid_t other = fork();
    if (other == 0) _exit(uap_posix_lock("state.lock") == 0);
    DEMAND(waitpid(other, &status, 0) == other && status == 0);
}

static void datagrams(void) {
    struct uap_posix_udp one, two, none;
    unsigned char bytes[8] = {1, 2, 3}, got[8];
    size_t length;
    DEMAND(uap_posix_udp_open(&none, "127.0.0.x", 0, "127.0.0.1", 1, 0) == EINVAL && none.socket == -1);
    DEMAND(uap_posix_udp_open(&one, "127.0.0.1", 0, "127.0.0.1", 1, 100000) == 0);
    DEMAND(uap_posix_udp_open(&two, "127.0.0.1", 0, "127.0.0.1", port_of(&one), 0) == 0);
    DEMAND(uap_posix_receive(&one, got, sizeof got, &length) == EAGAIN && length == 0);
    uint64_t before = uap_posix_now_ms();
    DEMAND(uap_posix_wait(&one, before + 30) == 0 && uap_posix_now_ms() - before >= 29);
    DEMAND(uap_posix_send(&two, bytes, 3) == 0);
    DEMAND(uap_posix_wait(&one, uap_posix_now_ms() + 5000) == 0);
    DEMAND(uap_posix_receive(&one, got, sizeof got, &length) == 0 && length == 3 && memcmp(got, bytes, 3) == 0);
    DEMAND(uap_posix_join(&one, "239.0.0.x", "127.0.0.1") == EINVAL);
    uap_posix_udp_close(&one);
    uap_posix_udp_close(&two);
}

int main(int count, char **words) {
    DEMAND(count == 2 && chdir(words[1]) == 0);
    files();
    lock();
    datagrams();
    return 0;
}
