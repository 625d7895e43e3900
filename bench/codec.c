/* The BFCP codec of the C library re (Debian's libre-dev 1.1.0), timed: ./codec COUNT

   Reads and writes each of four messages COUNT times (the longest a hundredth as often), and prints for each
   its name, what was done, and the nanoseconds of one. codec.rattle does the same with floor_message. */
#include <re.h>
#include <stdio.h>
#include <stdlib.h>
#include <time.h>

enum { REQUESTS = 255 };

static uint16_t one = 1, ten = 10;
static struct bfcp_reqstatus granted = { BFCP_GRANTED, 0 };
static enum bfcp_priority normal = BFCP_PRIO_NORMAL;

static int put_info(struct mbuf *out, uint16_t *request) {
    return bfcp_attrs_encode(out, 1, BFCP_FLOOR_REQ_INFO, 4, request,
                             BFCP_OVERALL_REQ_STATUS, 1, request, BFCP_REQUEST_STATUS, 0, &granted,
                             BFCP_FLOOR_REQ_STATUS, 1, &one, BFCP_REQUEST_STATUS, 0, &granted,
                             BFCP_BENEFICIARY_INFO, 0, &ten, BFCP_PRIORITY, 0, &normal);
}

static int put_infos(struct mbuf *out, void *unused) {
    int error = 0;
    (void)unused;
    for (uint16_t request = 1; request <= REQUESTS && !error; request++)
        error = put_info(out, &request);
    return error;
}

static int put_one(struct mbuf *out, void *unused) {
    (void)unused;
    return put_info(out, &one);
}

static int floor_request(struct mbuf *out) {
    return bfcp_msg_encode(out, 1, false, BFCP_FLOOR_REQUEST, 1, 2, 10, 2, BFCP_FLOOR_ID, 0, &one,
                           BFCP_PRIORITY, 0, &normal);
}

static int floor_request_status(struct mbuf *out) {
    struct bfcp_encode infos = { put_one, NULL };
    return bfcp_msg_encode(out, 1, false, BFCP_FLOOR_REQUEST_STATUS, 1, 2, 10, 1, BFCP_ENCODE_HANDLER, 0, &infos);
}

static int floor_status(struct mbuf *out) {
    struct bfcp_encode infos = { put_infos, NULL };
    return bfcp_msg_encode(out, 1, false, BFCP_FLOOR_STATUS, 1, 2, 10, 2, BFCP_FLOOR_ID, 0, &one,
                           BFCP_ENCODE_HANDLER, 0, &infos);
}

static int hello_ack(struct mbuf *out) {
    enum bfcp_prim primitives[13];
    enum bfcp_attrib attributes[18];
    struct bfcp_supprim supported_primitives = { primitives, 13 };
    struct bfcp_supattr supported_attributes = { attributes, 18 };
    for (int i = 0; i < 18; i++) {
        attributes[i] = (enum bfcp_attrib)(i + 1);
        if (i < 13)
            primitives[i] = (enum bfcp_prim)(i + 1);
    }
    return bfcp_msg_encode(out, 1, false, BFCP_HELLO_ACK, 1, 1, 10, 2, BFCP_SUPPORTED_PRIMS, 0, &supported_primitives,
                           BFCP_SUPPORTED_ATTRS, 0, &supported_attributes);
}

static double seconds(void) {
    struct timespec now;
    clock_gettime(CLOCK_MONOTONIC, &now);
    return (double)now.tv_sec + (double)now.tv_nsec / 1e9;
}

static void time_message(const char *name, int (*put)(struct mbuf *), long count) {
    struct mbuf *in = mbuf_alloc(16384), *out = mbuf_alloc(16384);
    struct bfcp_msg *message;
    double start;
    if (!in || !out || put(in))
        exit(1);
    printf("%s bytes %zu\n", name, in->end);
    start = seconds();
    for (long i = 0; i < count; i++) {
        in->pos = 0;
        if (bfcp_msg_decode(&message, in))
            exit(1);
        mem_deref(message);
    }
    printf("%s read %.0f\n", name, (seconds() - start) / (double)count * 1e9);
    start = seconds();
    for (long i = 0; i < count; i++) {
        out->pos = out->end = 0;
        if (put(out))
            exit(1);
    }
    printf("%s write %.0f\n", name, (seconds() - start) / (double)count * 1e9);
}

int main(int count_of_words, char **words) {
    long count = count_of_words > 1 ? atol(words[1]) : 100000;
    time_message("FloorRequest", floor_request, count);
    time_message("FloorRequestStatus", floor_request_status, count);
    time_message("HelloAck", hello_ack, count);
    time_message("FloorStatus", floor_status, count / 100);
    return 0;
}
