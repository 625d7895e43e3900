/* What the libraries share that are loaded into a program and tell something at its end: a line, in the file
   that a variable of the environment names. */
#ifndef LOADED_H
#define LOADED_H
#define _GNU_SOURCE
#include <errno.h>
#include <fcntl.h>
#include <stdatomic.h>
#include <stdio.h>
#include <stdlib.h>
#include <string.h>
#include <sys/syscall.h>
#include <unistd.h>

/* Writes the line of the end. */
static void tell(void);

/* Writes a line to the file that the variable names, where there is one. */
static void tell_line(const char *variable, const char *line) {
    const char *path = getenv(variable);
    if (!path)
        return;
    int file = open(path, O_WRONLY | O_CREAT | O_TRUNC, 0600);
    if (file >= 0 && syscall(SYS_write, file, line, strlen(line)) == (long)strlen(line))
        close(file);
}

__attribute__((destructor)) static void end(void) {
    tell();
}

void _exit(int status) {
    tell();
    for (;;)
        syscall(SYS_exit_group, status);
}

#endif
