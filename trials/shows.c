/* Runs `osi show` on each line of a file, in a process for each. It has to end by itself with status 0 or 1: 1 if
 * and only if a line of its listing says fault. The last line has to be `rest N` or the fault of a packet.
 *
 *     shows PROGRAM FILE STEP LISTINGS     takes each STEPth line; writes it and its listing to a file,
 *                                          with a line `=` after each */
#define _GNU_SOURCE
#include "ends.h"

#include <spawn.h>
#include <stdio.h>
#include <stdlib.h>
#include <string.h>
#include <sys/wait.h>
#include <unistd.h>

#define LINE 200000

extern char **environ;

/* Runs the program on these octets; its status, or -1. */
static int listed(const char *program, const char *line, struct text *listing)
{
    int in[2], out[2], status;
    pid_t child;
    posix_spawn_file_actions_t files;
    char *words[] = {(char *)program, (char *)"show", NULL};
    if (pipe(in) != 0 || pipe(out) != 0)
        abort();
    posix_spawn_file_actions_init(&files);
    posix_spawn_file_actions_adddup2(&files, in[0], 0);
    posix_spawn_file_actions_adddup2(&files, out[1], 1);
    for (int i = 0; i < 2; i++) {
        posix_spawn_file_actions_addclose(&files, in[i]);
        posix_spawn_file_actions_addclose(&files, out[i]);
    }
    if (posix_spawn(&child, program, &files, NULL, words, environ) != 0)
        abort();
    posix_spawn_file_actions_destroy(&files);
    close(in[0]);
    close(out[1]);
    ssize_t count = write(in[1], line, strlen(line));
    close(in[1]);
    text_clear(listing);
    do {
        text_grow(listing, 4096);
        count = read(out[0], listing->at + listing->length, 4096);
        listing->length += count > 0 ? (size_t)count : 0;
    } while (count > 0);
    listing->at[listing->length] = 0;
    close(out[0]);
    waitpid(child, &status, 0);
    return WIFEXITED(status) ? WEXITSTATUS(status) : -1;
}

static const char *last_line(const struct text *listing)
{
    size_t at = listing->length == 0 ? 0 : listing->length - 1;
    while (at > 0 && listing->at[at - 1] != '\n')
        at--;
    return listing->at + at;
}

int main(int count, char **words)
{
    static char line[LINE];
    static struct text listing;
    uint64_t refused = 0;
    if (count != 5)
        return 2;
    size_t step = (size_t)atoi(words[3]);
    FILE *file = fopen(words[2], "r"), *listings = fopen(words[4], "w");
    if (file == NULL || listings == NULL)
        return 2;
    for (size_t number = 0; fgets(line, sizeof line, file) != NULL; number++) {
        if (number % step != 0)
            continue;
        text_clear(&place);
        text_put(&place, "line %zu", number);
        int status = listed(words[1], line, &listing);
        bool fault = strstr(listing.at, "fault ") != NULL;
        holds(status == (fault ? 1 : 0), "status %d of %s", status, listing.at);
        holds(strncmp(last_line(&listing), "rest ", 5) == 0 || strncmp(last_line(&listing), "fault ", 6) == 0,
              "the last line is %s", last_line(&listing));
        fprintf(listings, "%s%s=\n", line, listing.at);
        refused += fault;
        runs += 1;
    }
    fclose(listings);
    printf("shows: %llu captures, a unit refused in %llu of them\n", (unsigned long long)runs,
           (unsigned long long)refused);
    return counts("shows");
}
