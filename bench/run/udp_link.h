// A socket of this machine that sends to itself, as `uapubsub run` has it: a receive looks, and where nothing is there it waits at most
// 10 ms for what it sent, or where it has sent nothing. What it sent it knows by the address.
#ifndef UDP_LINK_H
#define UDP_LINK_H
#include "../groups/plain.h"
#include <arpa/inet.h>
#include <stdio.h>
#include <stdlib.h>
#include <string.h>
#include <sys/socket.h>
#include <sys/time.h>

enum { WAIT_US = 10000, BUFFER_ROOM = 65537 };

static int udp_socket;
static struct sockaddr_in own_address;
static size_t sent_count, sent_bytes, own_count;

static void demand(bool holds, const char *what) {
    if (holds) return;
    perror(what);
    exit(8);
}

static void open_link(void) {
    struct timeval wait = {0, WAIT_US};
    socklen_t size = sizeof own_address;
    own_address = (struct sockaddr_in){.sin_family = AF_INET, .sin_addr.s_addr = htonl(INADDR_LOOPBACK)};
    udp_socket = socket(AF_INET, SOCK_DGRAM, 0);
    demand(udp_socket >= 0, "socket");
    demand(!bind(udp_socket, (struct sockaddr *)&own_address, size), "bind");
    demand(!getsockname(udp_socket, (struct sockaddr *)&own_address, &size), "getsockname");
    demand(!setsockopt(udp_socket, SOL_SOCKET, SO_RCVTIMEO, &wait, sizeof wait), "setsockopt");
}

static void put_on_link(const uint8_t *datagram, size_t length) {
    ssize_t gone = sendto(udp_socket, datagram, length, MSG_NOSIGNAL, (struct sockaddr *)&own_address, sizeof own_address);
    demand(gone == (ssize_t)length, "sendto");
    sent_count++;
    sent_bytes += length;
}

static ssize_t look(uint8_t *buffer, int flags) {
    struct sockaddr_in from;
    socklen_t size = sizeof from;
    ssize_t length = recvfrom(udp_socket, buffer, BUFFER_ROOM, flags, (struct sockaddr *)&from, &size);
    if (length < 0) return length;
    if (from.sin_port == own_address.sin_port && from.sin_addr.s_addr == own_address.sin_addr.s_addr) own_count++;
    return length;
}

// By way of a buffer that no datagram fills.
static size_t take_off_link(uint8_t *into) {
    static uint8_t buffer[BUFFER_ROOM];
    ssize_t length = look(buffer, MSG_DONTWAIT);
    if (length < 0 && (sent_count == 0 || own_count != sent_count)) length = look(buffer, 0);
    if (length < 0) return 0;
    memcpy(into, buffer, (size_t)length);
    return (size_t)length;
}
#endif
