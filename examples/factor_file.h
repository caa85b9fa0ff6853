/* What the examples in C share: a factor file with memory for its volume, and refusals told. */
#ifndef FACTOR_FILE_H
#define FACTOR_FILE_H

#include <errno.h>
#include <stdio.h>
#include <stdlib.h>
#include <string.h>
#include <recorder.h>

static void give_up(const char *name, const char *why)
{
    fprintf(stderr, "%s: %s\n", name, why);
    exit(2);
}

/* Memory is not NULL and it is initialised, as the library asks, and so it is for no elements. */
static void *zeros(size_t count, size_t size)
{
    void *memory = calloc(count ? count : 1, size);
    if (!memory)
        give_up("memory", "there is none left");
    return memory;
}

/* The bytes of a file, and how many they are. */
static uint8_t *contents(const char *name, size_t *length)
{
    size_t room = 65536, got;
    uint8_t *bytes = zeros(room, 1);
    FILE *file = fopen(name, "rb");
    if (!file)
        give_up(name, strerror(errno));
    for (*length = 0; (got = fread(bytes + *length, 1, room - *length, file)) > 0; *length += got)
        if (*length + got == room && !(bytes = realloc(bytes, room *= 2)))
            give_up(name, "no memory");
    if (ferror(file))
        give_up(name, strerror(errno));
    fclose(file);
    return bytes;
}

/* How many numbers the volume of a file has, as its header says. Nothing is judged here: of a header that is refused it is 0, and opening the file is
   refused alike. */
static size_t volume_length(const uint8_t *file, size_t length)
{
    return recorder_file_header(file, length).numbers;
}

/* A refused file is told by its number, which recorder.h names, and by the places of the records at fault, counted from 0. */
static void refuse_file(const char *name, uint32_t number, recorder_faults at_fault)
{
    fprintf(stderr, "%s: refused %u", name, number);
    if (at_fault.count > 0)
        fprintf(stderr, ", at fault: record %u", at_fault.first);
    if (at_fault.count > 1)
        fprintf(stderr, ", record %u", at_fault.second);
    fputs("\n", stderr);
    exit(1);
}

/* Every answer is looked at: what only an accepted call gives is 0 of a refused one. */
static void accept(const char *call, uint32_t number)
{
    if (number != RECORDER_ACCEPTED) {
        fprintf(stderr, "%s: refused %u\n", call, number);
        exit(1);
    }
}

#endif
