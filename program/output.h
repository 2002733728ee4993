/* What the program prints: gathered in one buffer, every write checked, every byte from outside made safe for a terminal. */
#ifndef OUTPUT_H
#define OUTPUT_H

#include <stdbool.h>
#include <stddef.h>

/* Plain bytes of the program's own. */
void put(const char *words);
void put_bytes(const void *bytes, size_t length);
void put_number(size_t number);
void put_repeated(char sign, size_t times);

/* `1 measure`, `4 measures`: the noun without its `s`. */
void put_count(size_t number, const char *noun);

/* Bytes from outside: control characters and bytes that are no UTF-8 come out as signs. */
void put_safely(const void *bytes, size_t length);

/* A file's name as people know it: `-` is standard input. */
void put_name(const char *name);

/* A string of JSON with its quotes. */
void put_json(const void *bytes, size_t length);

/* The output goes into this file, made or made anew when the first byte is written; null, or `-`, for standard output. */
void output_to(const char *name);

/* What is put between the two goes to standard error. */
void begin_aside(void);
void end_aside(void);

/* Writes what is gathered. False, with a message, where it or an earlier write failed; then the status is that of a failed output. */
bool finish_output(void);

/* Columns of the terminal, or a usual number where there is none. */
size_t output_width(void);

#endif
