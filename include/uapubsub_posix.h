/* Files, a clock and a UDP socket for a program over uapubsub.h, in POSIX: to use as they are, or to copy. Nothing here is proved.
 *
 * A program in C defines _DEFAULT_SOURCE before its first header, or asks its compiler for GNU C. Each call answers 0, or the errno of
 * what failed; where it answers otherwise, it says so.
 */
#ifndef UAPUBSUB_POSIX_H
#define UAPUBSUB_POSIX_H

#include <arpa/inet.h>
#include <errno.h>
#include <fcntl.h>
#include <netinet/in.h>
#include <poll.h>
#include <stdbool.h>
#include <stddef.h>
#include <stdint.h>
#include <stdio.h>
#include <string.h>
#include <sys/socket.h>
#include <sys/stat.h>
#include <time.h>
#include <unistd.h>

/* The longest name of a file, with a zero at its end. */
#define UAP_POSIX_NAME_ROOM 4096

/* How C and C++ write what is all zeros, and how they cast. */
#ifdef __cplusplus
#define UAP_POSIX_ZEROS {}
#define UAP_POSIX_CAST(type, it) static_cast<type>(it)
#else
#define UAP_POSIX_ZEROS {0}
#define UAP_POSIX_CAST(type, it) ((type)(it))
#endif

/* ---- the clock */

/* Milliseconds of a clock that is never set back. It begins anew when the system starts. */
static inline uint64_t uap_posix_now_ms(void) {
    struct timespec now;
    clock_gettime(CLOCK_MONOTONIC, &now);
    return UAP_POSIX_CAST(uint64_t, now.tv_sec) * 1000u + UAP_POSIX_CAST(uint64_t, now.tv_nsec) / 1000000u;
}

/* What to add to uap_posix_now_ms for milliseconds since 1970, of which moments of keys are: ask once, at the start, so that the sum isn't set back. */
static inline uint64_t uap_posix_epoch_ms(void) {
    struct timespec now;
    clock_gettime(CLOCK_REALTIME, &now);
    return UAP_POSIX_CAST(uint64_t, now.tv_sec) * 1000u + UAP_POSIX_CAST(uint64_t, now.tv_nsec) / 1000000u - uap_posix_now_ms();
}

/* ---- files that a power cut leaves whole */

/* Reads a whole file. ENOENT: there is none. EFBIG: it has more than `room` bytes, and nothing of it is to be used. */
static inline int uap_posix_read(const char *name, void *buffer, size_t room, size_t *length) {
    unsigned char *bytes = UAP_POSIX_CAST(unsigned char *, buffer);
    char more;
    ssize_t got = 0;
    int file = open(name, O_RDONLY | O_CLOEXEC), failed = 0;
    *length = 0;
    if (file < 0) return errno;
    while (*length < room && (got = read(file, bytes + *length, room - *length)) != 0) {
        if (got > 0) *length += UAP_POSIX_CAST(size_t, got);
        else if (errno != EINTR) break;
    }
    if (got < 0) failed = errno;
    else if (*length == room && read(file, &more, 1) != 0) failed = EFBIG;
    close(file);
    return failed;
}

/* Writes all bytes, and has the disk keep them. */
static inline int uap_posix_write_all(int file, const void *bytes, size_t length) {
    const unsigned char *rest = UAP_POSIX_CAST(const unsigned char *, bytes);
    while (length > 0) {
        ssize_t written = write(file, rest, length);
        if (written < 0 && errno != EINTR) return errno;
        if (written < 0) continue;
        rest += written;
        length -= UAP_POSIX_CAST(size_t, written);
    }
    return fsync(file) == 0 ? 0 : errno;
}

/* Has the disk keep the folder that the file is in, and so the file's name. */
static inline int uap_posix_sync_folder(const char *name) {
    char folder[UAP_POSIX_NAME_ROOM];
    const char *last = strrchr(name, '/');
    size_t length = last == NULL ? 0 : UAP_POSIX_CAST(size_t, last - name);
    if (length >= sizeof folder) return ENAMETOOLONG;
    memcpy(folder, name, length);
    folder[length] = 0;
    int opened = open(last == NULL ? "." : length == 0 ? "/" : folder, O_RDONLY | O_CLOEXEC), failed;
    if (opened < 0) return errno;
    failed = fsync(opened) == 0 ? 0 : errno;
    close(opened);
    return failed;
}

/* Has a file hold these bytes: NAME.new is written, kept by the disk and renamed to NAME, so a crash leaves the old file or the new one.
 * What it answers 0 for, the disk keeps. Where the program holds secrets in it, its mode is `mode`, as 0600. */
static inline int uap_posix_write(const char *name, const void *bytes, size_t length, mode_t mode) {
    char fresh[UAP_POSIX_NAME_ROOM];
    int failed;
    if (snprintf(fresh, sizeof fresh, "%s.new", name) >= UAP_POSIX_NAME_ROOM) return ENAMETOOLONG;
    int file = open(fresh, O_WRONLY | O_CREAT | O_TRUNC | O_CLOEXEC, mode);
    if (file < 0) return errno;
    failed = uap_posix_write_all(file, bytes, length);
    if (close(file) != 0 && failed == 0) failed = errno;
    if (failed != 0) return failed;
    if (rename(fresh, name) != 0) return errno;
    return uap_posix_sync_folder(name);
}

/* Locks a file while the program lives, so that no second one goes by the same state. However the program ends, the system lets the lock
 * go. EACCES or EAGAIN: another program holds it. Use a name of its own, as NAME.lock: a file that is renamed loses its lock. */
static inline int uap_posix_lock(const char *name) {
    struct flock whole = UAP_POSIX_ZEROS;
    int file = open(name, O_RDWR | O_CREAT | O_CLOEXEC, 0600);
    if (file < 0) return errno;
    whole.l_type = F_WRLCK;
    whole.l_whence = SEEK_SET;
    if (fcntl(file, F_SETLK, &whole) == 0) return 0;
    int failed = errno;
    close(file);
    return failed;
}

/* ---- a UDP socket */

/* A socket that doesn't wait, and whom it sends to. */
struct uap_posix_udp {
    int socket;
    struct sockaddr_in peer;
};

/* An IPv4 address and a port. EINVAL: it is no address. */
static inline int uap_posix_address(struct sockaddr_in *it, const char *address, uint16_t port) {
    memset(it, 0, sizeof *it);
    it->sin_family = AF_INET;
    it->sin_port = htons(port);
    return inet_pton(AF_INET, address, &it->sin_addr) == 1 ? 0 : EINVAL;
}

/* The address as the system's calls take it. */
static inline const struct sockaddr *uap_posix_sockaddr(const struct sockaddr_in *it) {
    const void *any = it;
    return UAP_POSIX_CAST(const struct sockaddr *, any);
}

/* Sets what a socket of a device has: it doesn't wait, it shares the port of a multicast group, and the system keeps `queued` bytes of
 * datagrams that the program hasn't received yet (docs/C.md says how many); 0 leaves the system's own number. */
static inline int uap_posix_prepare(int socket, int queued) {
    int on = 1;
    if (fcntl(socket, F_SETFL, O_NONBLOCK) != 0) return errno;
    if (setsockopt(socket, SOL_SOCKET, SO_REUSEADDR, &on, sizeof on) != 0) return errno;
    if (queued > 0 && setsockopt(socket, SOL_SOCKET, SO_RCVBUF, &queued, sizeof queued) != 0) return errno;
    return 0;
}

/* Opens a socket on this address of the machine, "0.0.0.0" for each, and this port. It sends to the peer. */
static inline int uap_posix_udp_open(struct uap_posix_udp *udp, const char *address, uint16_t port, const char *peer, uint16_t peer_port, int queued) {
    struct sockaddr_in own;
    int failed;
    udp->socket = -1;
    if ((failed = uap_posix_address(&own, address, port)) != 0) return failed;
    if ((failed = uap_posix_address(&udp->peer, peer, peer_port)) != 0) return failed;
    udp->socket = socket(AF_INET, SOCK_DGRAM, 0);
    if (udp->socket < 0) return errno;
    failed = uap_posix_prepare(udp->socket, queued);
    if (failed == 0 && bind(udp->socket, uap_posix_sockaddr(&own), sizeof own) != 0) failed = errno;
    if (failed != 0) {
        close(udp->socket);
        udp->socket = -1;
    }
    return failed;
}

/* Hears a multicast group on the interface with this address. The socket is bound to the group's address or to "0.0.0.0", and its port. */
static inline int uap_posix_join(const struct uap_posix_udp *udp, const char *group, const char *interface_address) {
    struct ip_mreq request = UAP_POSIX_ZEROS;
    if (inet_pton(AF_INET, group, &request.imr_multiaddr) != 1 || inet_pton(AF_INET, interface_address, &request.imr_interface) != 1) return EINVAL;
    return setsockopt(udp->socket, IPPROTO_IP, IP_ADD_MEMBERSHIP, &request, sizeof request) == 0 ? 0 : errno;
}

/* Sends a datagram. Where it isn't sent its number is used all the same: readers go on with the next key frame. */
static inline int uap_posix_send(const struct uap_posix_udp *udp, const void *bytes, size_t length) {
    ssize_t sent = sendto(udp->socket, bytes, length, 0, uap_posix_sockaddr(&udp->peer), sizeof udp->peer);
    return sent == UAP_POSIX_CAST(ssize_t, length) ? 0 : sent < 0 ? errno : EMSGSIZE;
}

/* Receives a datagram. EAGAIN: none waits. One that is longer than `room` is cut, so give room for 65,536 bytes. */
static inline int uap_posix_receive(const struct uap_posix_udp *udp, void *buffer, size_t room, size_t *length) {
    ssize_t got = recv(udp->socket, buffer, room, 0);
    *length = got < 0 ? 0 : UAP_POSIX_CAST(size_t, got);
    return got >= 0 ? 0 : errno == EWOULDBLOCK ? EAGAIN : errno;
}

/* Waits until a datagram is there, but at most until the moment `until_ms` of uap_posix_now_ms. EINTR: a signal came. */
static inline int uap_posix_wait(const struct uap_posix_udp *udp, uint64_t until_ms) {
    struct pollfd ready = UAP_POSIX_ZEROS;
    uint64_t now = uap_posix_now_ms(), left = until_ms > now ? until_ms - now : 0;
    ready.fd = udp->socket;
    ready.events = POLLIN;
    return poll(&ready, 1, left > 60000 ? 60000 : UAP_POSIX_CAST(int, left)) >= 0 ? 0 : errno;
}

static inline void uap_posix_udp_close(struct uap_posix_udp *udp) {
    if (udp->socket >= 0) close(udp->socket);
    udp->socket = -1;
}

#undef UAP_POSIX_ZEROS
#undef UAP_POSIX_CAST

#endif
