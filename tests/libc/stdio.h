#ifndef TESTS_STDIO_H
#define TESTS_STDIO_H

#include <stdarg.h>
#include <stddef.h>

#ifdef __cplusplus
extern "C" {
#endif

typedef struct _IO_FILE FILE;
extern FILE *stdin, *stdout, *stderr;

int printf(const char *format, ...);
int vprintf(const char *format, va_list list);
int fprintf(FILE *file, const char *format, ...);
int fputs(const char *line, FILE *file);
size_t fread(void *to, size_t size, size_t count, FILE *file);
size_t fwrite(const void *from, size_t size, size_t count, FILE *file);
int ferror(FILE *file);
int fflush(FILE *file);

#ifdef __cplusplus
}
#endif

#endif
