// For bench/relay: a client that loads a relay, and the plain receivers that it is compared with.
//
//   relay load PORT CONNECTIONS WINDOW EVENTS BYTES MESSAGES    sends so many messages over so many connections, each with so many under
//                                                               way, each with so many events of so many bytes (one event: Message
//                                                               mode, more: PackedForward), and prints messages a second; each has to
//                                                               be answered once, by its own name
//   relay reach PORT BYTES MESSAGES FILE    sends so many messages of one event of so many bytes, each once the one before stands in the
//                                           sink's file, and prints the middle one of the times that this took, in milliseconds
//   relay waits PORT SECONDS  sends a message of one event of 200 bytes each two milliseconds for so long, each once the one before was
//                             answered, and prints how long an answer took in milliseconds, 99 of 100 at most and the worst, and how
//                             many were sent
//   relay huge PORT ENTRIES   sends one message of so many entries of three bytes, and prints how long its answer took, in seconds
//   relay each PORT FILE      receives: appends each message to the file, syncs, and answers
//   relay batch PORT FILE     the same with one sync for all that a poll brought
#include <arpa/inet.h>
#include <errno.h>
#include <fcntl.h>
#include <netinet/tcp.h>
#include <poll.h>
#include <stdint.h>
#include <stdio.h>
#include <stdlib.h>
#include <string.h>
#include <sys/socket.h>
#include <sys/stat.h>
#include <time.h>
#include <unistd.h>

enum { MOST = 64, ROOM = 1 << 22, ID = 24 };

typedef struct {
  int socket;
  uint8_t *held;
  size_t length;
  unsigned under_way;
} Connection;

static Connection all[MOST];
static unsigned count;

static void check(int holds, const char *what) {
  if (!holds) {
    perror(what);
    exit(1);
  }
}

static double now(void) {
  struct timespec t;
  clock_gettime(CLOCK_MONOTONIC, &t);
  return t.tv_sec + t.tv_nsec / 1e9;
}

static void write_all(int to, const uint8_t *bytes, size_t length) {
  while (length > 0) {
    ssize_t n = write(to, bytes, length);
    if (n < 0 && errno == EINTR) continue;
    check(n > 0, "write");
    bytes += n;
    length -= n;
  }
}

static void add(int socket) {
  int on = 1;
  setsockopt(socket, IPPROTO_TCP, TCP_NODELAY, &on, sizeof on);
  unsigned place = 0;
  while (place < count && all[place].socket >= 0) place++;
  check(place < MOST, "too many connections");
  if (place == count) all[count++].held = malloc(ROOM);
  all[place].socket = socket;
  all[place].length = 0;
  all[place].under_way = 0;
}

static unsigned long big(const uint8_t *at, unsigned width) {
  unsigned long n = 0;
  for (unsigned i = 0; i < width; i++) n = n << 8 | at[i];
  return n;
}

// Where the item ends that begins here, or 0 where it isn't whole.
static const uint8_t *skip(const uint8_t *at, const uint8_t *end) {
  unsigned long items = 1;
  while (items > 0) {
    if (at >= end) return 0;
    items--;
    uint8_t first = *at++;
    unsigned long bytes = 0;
    unsigned width = 0;
    if (first < 0x80 || first >= 0xe0) continue;
    if (first < 0x90) items += 2 * (first & 15);
    else if (first < 0xa0) items += first & 15;
    else if (first < 0xc0) bytes = first & 31;
    else if (first >= 0xc4 && first <= 0xc6) width = 1 << (first - 0xc4);
    else if (first >= 0xd9 && first <= 0xdb) width = 1 << (first - 0xd9);
    else if (first == 0xcc) bytes = 1;
    else if (first == 0xcd) bytes = 2;
    else if (first == 0xce) bytes = 4;
    else if (first == 0xcf) bytes = 8;
    if (width > 0) {
      if ((size_t)(end - at) < width) return 0;
      bytes = big(at, width);
      at += width;
    }
    if ((size_t)(end - at) < bytes) return 0;
    at += bytes;
  }
  return at;
}

// The client's messages end with a chunk id of ID bytes.
static void answer(int socket, const uint8_t *id) {
  uint8_t bytes[6 + ID] = {0x81, 0xa3, 'a', 'c', 'k', 0xa0 | ID};
  memcpy(bytes + 6, id, ID);
  write_all(socket, bytes, sizeof bytes);
}

static int fill(Connection *c) {
  ssize_t n = read(c->socket, c->held + c->length, ROOM - c->length);
  if (n <= 0) return 0;
  c->length += n;
  return 1;
}

static void forget(Connection *c, size_t n) {
  memmove(c->held, c->held + n, c->length - n);
  c->length -= n;
}

// Takes in what a connection holds; with a sync for each message, or with the answers left for
// later.
static size_t take(Connection *c, int file, int each) {
  const uint8_t *at = c->held, *end = c->held + c->length, *next;
  while ((next = skip(at, end)) != 0) {
    if (each) {
      write_all(file, at, next - at);
      check(fdatasync(file) == 0, "fdatasync");
      answer(c->socket, next - ID);
    }
    at = next;
  }
  if (!each) write_all(file, c->held, at - c->held);
  return at - c->held;
}

static void answer_all(Connection *c, size_t taken) {
  const uint8_t *at = c->held, *end = c->held + taken;
  while (at < end) {
    at = skip(at, end);
    answer(c->socket, at - ID);
  }
}

static void receive(int port, const char *path, int each) {
  int listener = socket(AF_INET, SOCK_STREAM, 0), on = 1;
  struct sockaddr_in address = {.sin_family = AF_INET, .sin_port = htons(port), .sin_addr.s_addr = htonl(INADDR_LOOPBACK)};
  setsockopt(listener, SOL_SOCKET, SO_REUSEADDR, &on, sizeof on);
  check(bind(listener, (struct sockaddr *)&address, sizeof address) == 0 && listen(listener, MOST) == 0, "listen");
  int file = open(path, O_WRONLY | O_CREAT | O_APPEND, 0600);
  check(file >= 0, path);
  printf("ready %d\n", port);
  fflush(stdout);
  for (;;) {
    struct pollfd polled[MOST + 1] = {{.fd = listener, .events = POLLIN}};
    size_t taken[MOST] = {0}, sum = 0;
    for (unsigned i = 0; i < count; i++) polled[i + 1] = (struct pollfd){.fd = all[i].socket, .events = POLLIN};
    unsigned before = count;
    check(poll(polled, before + 1, -1) > 0, "poll");
    if (polled[0].revents) add(accept(listener, 0, 0));
    for (unsigned i = 0; i < before; i++) {
      if (!polled[i + 1].revents) continue;
      if (!fill(&all[i])) {
        close(all[i].socket);
        all[i].socket = -1;
        continue;
      }
      taken[i] = take(&all[i], file, each);
      sum += taken[i];
    }
    if (sum > 0 && !each) check(fdatasync(file) == 0, "fdatasync");
    for (unsigned i = 0; i < before; i++) {
      if (taken[i] == 0) continue;
      if (!each) answer_all(&all[i], taken[i]);
      forget(&all[i], taken[i]);
    }
  }
}

static uint8_t *put_text(uint8_t *at, const char *text, size_t length) {
  *at++ = 0xda;
  *at++ = length >> 8;
  *at++ = length;
  memcpy(at, text, length);
  return at + length;
}

// The time and the record of an event of so many bytes.
static uint8_t *put_event(uint8_t *at, unsigned bytes) {
  char text[4096];
  memset(text, 'x', sizeof text);
  *at++ = 0xce;
  memcpy(at, "\x65\xa1\xb2\xc3", 4);
  at += 4;
  memcpy(at, "\x81\xa3log", 5);
  return put_text(at + 5, text, bytes - 13);
}

static size_t message(uint8_t *bytes, unsigned events, unsigned size) {
  uint8_t *at = bytes;
  *at++ = events == 1 ? 0x94 : 0x93;
  memcpy(at, "\xa5" "app.x", 6);
  at += 6;
  if (events == 1) {
    at = put_event(at, size);
  } else {
    uint8_t *front = at;
    at += 5;
    for (unsigned i = 0; i < events; i++) {
      *at++ = 0x92;
      at = put_event(at, size - 1);
    }
    unsigned long length = at - front - 5;
    front[0] = 0xc6;
    for (unsigned i = 0; i < 4; i++) front[1 + i] = length >> (24 - 8 * i);
  }
  memcpy(at, "\x81\xa5" "chunk", 7);
  at += 7;
  *at++ = 0xa0 | ID;
  return at + ID - bytes;
}

static void send_one(Connection *c, uint8_t *bytes, size_t length, unsigned long number) {
  char id[ID + 1];
  snprintf(id, sizeof id, "%024lu", number);
  memcpy(bytes + length - ID, id, ID);
  write_all(c->socket, bytes, length);
  c->under_way++;
}

static void connect_to(int port) {
  struct sockaddr_in address = {.sin_family = AF_INET, .sin_port = htons(port), .sin_addr.s_addr = htonl(INADDR_LOOPBACK)};
  int made = socket(AF_INET, SOCK_STREAM, 0);
  check(connect(made, (struct sockaddr *)&address, sizeof address) == 0, "connect");
  add(made);
}

// Takes the answers that a connection holds, each of which has to name a message that was sent and
// wasn't answered yet.
static unsigned long take_answers(Connection *c, uint8_t *awaited, unsigned long sent) {
  unsigned long n = c->length / (6 + ID);
  for (unsigned long i = 0; i < n; i++) {
    char id[ID + 1] = {0};
    memcpy(id, c->held + i * (6 + ID) + 6, ID);
    unsigned long number = strtoul(id, 0, 10);
    errno = EPROTO;
    check(number < sent && awaited[number], "an answer to no message");
    awaited[number] = 0;
  }
  forget(c, n * (6 + ID));
  c->under_way -= n;
  return n;
}

static void load(int port, unsigned connections, unsigned window, unsigned events, unsigned size, unsigned long messages) {
  static uint8_t bytes[ROOM];
  size_t length = message(bytes, events, size);
  uint8_t *awaited = malloc(messages);
  for (unsigned i = 0; i < connections; i++) connect_to(port);
  unsigned long sent = 0, answered = 0;
  double began = now();
  while (answered < messages) {
    struct pollfd polled[MOST];
    for (unsigned i = 0; i < count; i++) {
      while (all[i].under_way < window && sent < messages) {
        awaited[sent] = 1;
        send_one(&all[i], bytes, length, sent++);
      }
      polled[i] = (struct pollfd){.fd = all[i].socket, .events = POLLIN};
    }
    check(poll(polled, count, 20000) > 0, "no answer");
    for (unsigned i = 0; i < count; i++) {
      if (!polled[i].revents) continue;
      check(fill(&all[i]), "the connection is lost");
      answered += take_answers(&all[i], awaited, sent);
    }
  }
  printf("%.0f\n", messages / (now() - began));
}

static off_t size_of(const char *path) {
  struct stat found;
  return stat(path, &found) == 0 ? found.st_size : 0;
}

static int is_later(const void *a, const void *b) {
  double x = *(const double *)a, y = *(const double *)b;
  return (x > y) - (x < y);
}

static void reach(int port, unsigned size, unsigned long messages, const char *path) {
  static uint8_t bytes[ROOM];
  size_t length = message(bytes, 1, size);
  double *took = malloc(messages * sizeof *took);
  connect_to(port);
  for (unsigned long sent = 0; sent < messages; sent++) {
    off_t before = size_of(path);
    double began = now();
    send_one(&all[0], bytes, length, 0);
    while (size_of(path) <= before) {
      struct timespec pause = {.tv_nsec = 100000};
      check(now() - began < 20, "a message didn't arrive");
      nanosleep(&pause, 0);
    }
    took[sent] = 1000 * (now() - began);
    while (all[0].under_way > 0) {
      uint8_t awaited = 1;
      check(fill(&all[0]), "the connection is lost");
      take_answers(&all[0], &awaited, 1);
    }
  }
  qsort(took, messages, sizeof *took, is_later);
  printf("%.1f\n", took[messages / 2]);
}

// Sends a message, and says how long its answer took, in milliseconds.
static double asked(uint8_t *bytes, size_t length) {
  uint8_t awaited = 1;
  double began = now();
  send_one(&all[0], bytes, length, 0);
  while (all[0].under_way > 0) {
    check(fill(&all[0]), "the connection is lost");
    take_answers(&all[0], &awaited, 1);
  }
  return 1000 * (now() - began);
}

static void waits(int port, unsigned seconds) {
  static uint8_t bytes[ROOM];
  size_t length = message(bytes, 1, 200), most = 500 * seconds, done = 0;
  double *took = malloc(most * sizeof *took), began = now();
  connect_to(port);
  while (done < most && (done == 0 || now() - began < seconds)) {
    struct timespec pause = {.tv_nsec = 2000000};
    took[done++] = asked(bytes, length);
    nanosleep(&pause, 0);
  }
  qsort(took, done, sizeof *took, is_later);
  printf("%.1f %.1f %zu\n", took[done - 1 - done / 100], took[done - 1], done);
}

static void huge(int port, unsigned long entries) {
  uint8_t *bytes = malloc(3 * entries + 64), *at = bytes;
  memcpy(at, "\x93\xa5" "app.x\xc6", 8);
  at += 8;
  for (unsigned i = 0; i < 4; i++) *at++ = 3 * entries >> (24 - 8 * i);
  for (unsigned long i = 0; i < entries; i++, at += 3) memcpy(at, "\x92\x00\x80", 3);
  memcpy(at, "\x81\xa5" "chunk", 7);
  at[7] = 0xa0 | ID;
  connect_to(port);
  printf("%.2f\n", asked(bytes, at + 8 + ID - bytes) / 1000);
}

int main(int n, char **words) {
  if (n == 8 && strcmp(words[1], "load") == 0) {
    load(atoi(words[2]), atoi(words[3]), atoi(words[4]), atoi(words[5]), atoi(words[6]), atol(words[7]));
    return 0;
  }
  if (n == 6 && strcmp(words[1], "reach") == 0) {
    reach(atoi(words[2]), atoi(words[3]), atol(words[4]), words[5]);
    return 0;
  }
  if (n == 4 && strcmp(words[1], "waits") == 0) {
    waits(atoi(words[2]), atoi(words[3]));
    return 0;
  }
  if (n == 4 && strcmp(words[1], "huge") == 0) {
    huge(atoi(words[2]), atol(words[3]));
    return 0;
  }
  if (n == 4) receive(atoi(words[2]), words[3], strcmp(words[1], "each") == 0);
  return 2;
}
