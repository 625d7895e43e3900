/* Refuses reads, writes and accepts of the program that it is loaded into, as refusing.h says: of files and
   sockets alike, one after another as they are made, but for reads of standard input, by which it would end.
   Where SHORT stands in the environment each write to a socket takes one byte alone. */
#include "refusing.h"
#include <dlfcn.h>
#include <sys/socket.h>

/* The C library's call of this name. */
#define NEXT(name) ((__typeof__(&name))dlsym(RTLD_NEXT, #name))

ssize_t read(int file, void *bytes, size_t count) {
    return file != STDIN_FILENO && is_refused(EIO) ? -1 : NEXT(read)(file, bytes, count);
}

ssize_t recv(int socket, void *bytes, size_t count, int flags) {
    return is_refused(ECONNRESET) ? -1 : NEXT(recv)(socket, bytes, count, flags);
}

ssize_t write(int file, const void *bytes, size_t count) {
    return is_refused(EIO) ? -1 : NEXT(write)(file, bytes, count);
}

ssize_t send(int socket, const void *bytes, size_t count, int flags) {
    size_t taken = count > 1 && getenv("SHORT") ? 1 : count;
    return is_refused(EPIPE) ? -1 : NEXT(send)(socket, bytes, taken, flags);
}

int accept4(int socket, struct sockaddr *peer, socklen_t *length, int flags) {
    return is_refused(EMFILE) ? -1 : NEXT(accept4)(socket, peer, length, flags);
}
