// Beside bench/buffers: a bare loop of write and fdatasync of the same bytes, a bare read of a file
// in pieces, and bare copies: the file read whole into memory, written to another and synced, and
// the same in pieces. `spent` runs a command, and prints how many seconds it takes, how many of a
// processor it takes itself, and how many MB it has resident at most.
//
//   append write FILE COUNT BYTES [EACH]    with one fdatasync for so many writes
//   append read FILE
//   append copy FILE OTHER
//   append pieces FILE OTHER
//   append spent COMMAND..
#include <fcntl.h>
#include <stdio.h>
#include <stdlib.h>
#include <string.h>
#include <sys/resource.h>
#include <sys/wait.h>
#include <time.h>
#include <unistd.h>

static double seconds(struct timeval t) { return t.tv_sec + t.tv_usec / 1e6; }

static int spent(char **command) {
  struct timespec from, to;
  struct rusage used;
  int status;
  clock_gettime(CLOCK_MONOTONIC, &from);
  pid_t child = fork();
  if (child == 0) {
    dup2(open("/dev/null", O_WRONLY), 1);
    execv(command[0], command);
    _exit(127);
  }
  if (child < 0 || wait4(child, &status, 0, &used) != child || status != 0) return 1;
  clock_gettime(CLOCK_MONOTONIC, &to);
  printf("%.4f %.4f %ld\n", to.tv_sec - from.tv_sec + (to.tv_nsec - from.tv_nsec) / 1e9,
         seconds(used.ru_utime) + seconds(used.ru_stime), used.ru_maxrss / 1024);
  return 0;
}

int main(int words, char **word) {
  if ((words == 5 || words == 6) && strcmp(word[1], "write") == 0) {
    int file = open(word[2], O_WRONLY | O_CREAT | O_APPEND, 0644);
    size_t count = strtoul(word[3], 0, 10), bytes = strtoul(word[4], 0, 10);
    size_t each = words == 6 ? strtoul(word[5], 0, 10) : 1;
    char *record = calloc(1, bytes);
    if (file < 0 || !record || !each) return 1;
    for (size_t i = 0; i < count; i++)
      if (write(file, record, bytes) != (ssize_t)bytes || (i % each == each - 1 && fdatasync(file))) return 1;
    return 0;
  }
  static char piece[65536];
  if (words == 3 && strcmp(word[1], "read") == 0) {
    int file = open(word[2], O_RDONLY);
    unsigned long sum = 0;
    ssize_t got;
    if (file < 0) return 1;
    while ((got = read(file, piece, sizeof piece)) > 0) sum += (unsigned char)piece[got - 1];
    return got < 0 ? 1 : (int)(sum & 0);
  }
  if (words == 4 && strcmp(word[1], "copy") == 0) {
    int from = open(word[2], O_RDONLY), to = open(word[3], O_WRONLY | O_CREAT | O_TRUNC, 0644);
    off_t len = from < 0 ? -1 : lseek(from, 0, SEEK_END);
    char *bytes = len < 0 ? 0 : malloc(len);
    if (to < 0 || !bytes || pread(from, bytes, len, 0) != len || write(to, bytes, len) != len) return 1;
    return fsync(to) ? 1 : 0;
  }
  if (words == 4 && strcmp(word[1], "pieces") == 0) {
    int from = open(word[2], O_RDONLY), to = open(word[3], O_WRONLY | O_CREAT | O_TRUNC, 0644);
    ssize_t got;
    if (from < 0 || to < 0) return 1;
    while ((got = read(from, piece, sizeof piece)) > 0)
      if (write(to, piece, got) != got) return 1;
    return got < 0 || fsync(to) ? 1 : 0;
  }
  if (words >= 3 && strcmp(word[1], "spent") == 0) return spent(word + 2);
  return 2;
}
