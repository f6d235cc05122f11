/* How a program hears a multicast group, to which tutorials send: docs/WIRE.md. For POSIX; `_DEFAULT_SOURCE` is defined before all headers. */
#ifndef JOINED_H
#define JOINED_H

#include <arpa/inet.h>
#include <stdbool.h>
#include <stdint.h>
#include <sys/socket.h>
#include <unistd.h>

/* A socket that hears datagrams to this group and port, on the interface with this address; -1: there is none. */
static inline int joined(const char *group, uint16_t port, const char *interface) {
    struct sockaddr_in name = {.sin_family = AF_INET, .sin_port = htons(port)};
    struct ip_mreq request;
    int on = 1, it = socket(AF_INET, SOCK_DGRAM, 0);
    if (it < 0) return -1;
    if (inet_pton(AF_INET, group, &name.sin_addr) == 1 && inet_pton(AF_INET, interface, &request.imr_interface) == 1) {
        request.imr_multiaddr = name.sin_addr;
        if (setsockopt(it, SOL_SOCKET, SO_REUSEADDR, &on, sizeof on) == 0 && bind(it, (struct sockaddr *)&name, sizeof name) == 0 &&
            setsockopt(it, IPPROTO_IP, IP_ADD_MEMBERSHIP, &request, sizeof request) == 0)
            return it;
    }
    close(it);
    return -1;
}

#endif
