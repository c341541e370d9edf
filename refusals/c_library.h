/* What is used here of the C library. The kit's compiler comes with no headers. */
#ifndef C_LIBRARY_H
#define C_LIBRARY_H

typedef __SIZE_TYPE__ size_t;
typedef __UINT8_TYPE__ uint8_t;
typedef struct file FILE;

enum { STDIN_FILENO, STDOUT_FILENO, STDERR_FILENO };
enum { SEEK_SET, SEEK_CUR };
enum { O_RDONLY, O_WRONLY };
#define RTLD_NEXT ((void *)-1L)

extern FILE *stderr;
FILE *fopen(const char *path, const char *mode);
FILE *fdopen(int descriptor, const char *mode);
FILE *tmpfile(void);
int fileno(FILE *file);
int fclose(FILE *file);
int printf(const char *format, ...);
int fprintf(FILE *file, const char *format, ...);
int snprintf(char *to, size_t room, const char *format, ...);
int sscanf(const char *text, const char *format, ...);
char *fgets(char *line, int size, FILE *file);

int open(const char *path, int flags, ...);
int close(int descriptor);
int pipe(int *ends);
int dup(int descriptor);
int dup2(int descriptor, int other);
int ftruncate(int descriptor, long size);
long lseek(int descriptor, long offset, int whence);
long pread(int descriptor, void *to, size_t count, long offset);
long pwrite(int descriptor, const void *from, size_t count, long offset);

int fork(void);
int execve(const char *path, char *const *words, char *const *environment);
int waitpid(int process, int *status, int options);
char *getenv(const char *name);
void *dlsym(void *objects, const char *name);
void _exit(int status) __attribute__((noreturn));

void exit(int status) __attribute__((noreturn));
int memcmp(const void *one, const void *other, size_t count);
void *memcpy(void *to, const void *from, size_t count);
void *memset(void *to, int octet, size_t count);
size_t strlen(const char *text);
int strcmp(const char *one, const char *other);
char *strtok(char *text, const char *between);
#endif
