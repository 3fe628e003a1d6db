/* See stdbool.h beside it: the functions of the C library that the C programs here use. */
#ifndef HANDSET_KIT_STDIO_H
#define HANDSET_KIT_STDIO_H
#define EOF (-1)
typedef struct handset_kit_file FILE;
extern FILE *stdin;
int getchar(void);
int putchar(int code);
int printf(const char *format, ...);
FILE *freopen(const char *name, const char *mode, FILE *file);
int ferror(FILE *file);
int fflush(FILE *file);
void perror(const char *text);
#endif
