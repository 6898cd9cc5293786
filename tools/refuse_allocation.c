// Preloaded into a program: refuses its allocation number REFUSE_ALLOCATION, counted from 1 over the calls of malloc and
// realloc, with those behind it as far as REFUSE_IN_A_ROW says, and says so on standard error. Where that number is 0 it refuses
// none, and says at the end how many there were. With REFUSE_SECONDS it reads such numbers from standard input, of eleven digits
// each and an end of line, and runs the program once for each, for so long at most: in a folder that has the number for a name,
// into a file `said`. It prints each number with the status of its run.
#define _GNU_SOURCE
#include <dlfcn.h>
#include <fcntl.h>
#include <stdio.h>
#include <stdlib.h>
#include <string.h>
#include <sys/stat.h>
#include <sys/wait.h>
#include <unistd.h>

#define NUMBER_BYTES 12

static long wanted, row, count;

static long number_by(const char *name, long otherwise) {
  const char *text = getenv(name);
  return text ? atol(text) : otherwise;
}

static void enter_folder(long number) {
  char name[NUMBER_BYTES + 1];
  snprintf(name, sizeof name, "%ld", number);
  if (mkdir(name, 0700) < 0 || chdir(name) < 0) abort();
  int said = open("said", O_WRONLY | O_CREAT | O_APPEND, 0600);
  if (said < 0 || dup2(said, STDOUT_FILENO) < 0 || dup2(said, STDERR_FILENO) < 0) abort();
  close(said);
}

// Comes back in the program that a number is for.
static void run_each(long seconds) {
  char text[NUMBER_BYTES + 1] = "";
  while (read(STDIN_FILENO, text, NUMBER_BYTES) == NUMBER_BYTES) {
    int status = 0;
    pid_t child = fork();
    if (child == 0) {
      enter_folder(atol(text));
      alarm(seconds);
      wanted = atol(text);
      count = 0;
      return;
    }
    if (child < 0 || waitpid(child, &status, 0) < 0) abort();
    dprintf(STDOUT_FILENO, "%ld %d\n", atol(text), status);
  }
  _exit(0);
}

__attribute__((constructor)) static void begin(void) {
  wanted = number_by("REFUSE_ALLOCATION", -1);
  row = number_by("REFUSE_IN_A_ROW", 1);
  long seconds = number_by("REFUSE_SECONDS", 0);
  if (seconds > 0) run_each(seconds);
}

__attribute__((destructor)) static void end(void) {
  if (wanted == 0) dprintf(STDERR_FILENO, "allocations: %ld\n", count);
}

// A program with threads ends so.
void _exit(int status) {
  static void (*real)(int);
  *(void **)&real = dlsym(RTLD_NEXT, "_exit");
  end();
  real(status);
  abort();
}

static int is_refused(void) {
  static const char line[] = "allocation refused\n";
  long number = __atomic_add_fetch(&count, 1, __ATOMIC_RELAXED);
  if (wanted < 1 || number < wanted || number - wanted >= row) return 0;
  return write(STDERR_FILENO, line, strlen(line)) > 0;
}

void *malloc(size_t size) {
  static void *(*real)(size_t);
  if (!real) *(void **)&real = dlsym(RTLD_NEXT, "malloc");
  return is_refused() ? NULL : real(size);
}

void *realloc(void *old, size_t size) {
  static void *(*real)(void *, size_t);
  if (!real) *(void **)&real = dlsym(RTLD_NEXT, "realloc");
  return is_refused() ? NULL : real(old, size);
}
