/* How fast relaynet finds where items end and reads messages, beside a plain C skipper and msgpack-c.
 *
 * Every row is run several times in turn with the others, and the best time of each counts, so that the ratios
 * stand for one machine at one time. Built and run by ./decode.
 */
#include <msgpack.h>
#include <stdint.h>
#include <stdio.h>
#include <stdlib.h>
#include <string.h>
#include <time.h>

/* Exports of the static library decode_bench: a slice is a pointer and a length. */
size_t relaynet_scan_all(const uint8_t *bytes, size_t length);
size_t relaynet_read_all(const uint8_t *bytes, size_t length);
size_t relaynet_feed_all(const uint8_t *bytes, size_t length, size_t piece);

enum { TARGET = 64 * 1024 * 1024, TURNS = 5, RECORD = 200, PACKED_ENTRIES = 1000 };

typedef struct {
  uint8_t *bytes;
  size_t length;
  size_t room;
} Buffer;

static void put(Buffer *b, const void *bytes, size_t n) {
  if (b->length + n > b->room) {
    b->room = 2 * (b->length + n);
    b->bytes = realloc(b->bytes, b->room);
    if (!b->bytes) exit(2);
  }
  memcpy(b->bytes + b->length, bytes, n);
  b->length += n;
}

static void put_byte(Buffer *b, uint8_t byte) { put(b, &byte, 1); }

static void put_str(Buffer *b, const char *text) {
  size_t n = strlen(text);
  if (n < 32) {
    put_byte(b, 0xa0 | n);
  } else {
    put_byte(b, 0xd9);
    put_byte(b, n);
  }
  put(b, text, n);
}

/* A record of about RECORD bytes, as a web server logs it. */
static void put_record(Buffer *b, unsigned i) {
  char line[160];
  snprintf(line, sizeof line, "GET /item/%08u?session=%08x HTTP/1.1 \"Mozilla/5.0 (X11; Linux x86_64)\" %u %0*u", i,
           i * 2654435761u, 200 + i % 4, 40, i);
  put_byte(b, 0x84);
  put_str(b, "host");
  put_str(b, "web-1.example");
  put_str(b, "status");
  put_byte(b, 0xcd);
  put_byte(b, 0x00);
  put_byte(b, 0xc8);
  put_str(b, "bytes");
  put_byte(b, 0xce);
  put(b, &i, 4);
  put_str(b, "message");
  put_str(b, line);
}

static void put_time(Buffer *b, unsigned i) {
  put_byte(b, 0xd7);
  put_byte(b, 0x00);
  put(b, &i, 4);
  put(b, &i, 4);
}

static Buffer message_mode(void) {
  Buffer b = {0};
  for (unsigned i = 0; b.length < TARGET; i++) {
    put_byte(&b, 0x93);
    put_str(&b, "app.access");
    put_time(&b, i);
    put_record(&b, i);
  }
  return b;
}

/* Arrays of 1,000 items of one byte: integers and bools. */
static Buffer one_byte_items(void) {
  Buffer b = {0};
  while (b.length < TARGET) {
    put(&b, "\xdc\x03\xe8", 3);
    for (int k = 0; k < 1000; k++) put_byte(&b, k & 1 ? 0xc3 : k * 7 & 0x7f);
  }
  return b;
}

static Buffer packed_forward(void) {
  Buffer b = {0};
  for (unsigned i = 0; b.length < TARGET;) {
    Buffer entries = {0};
    for (int k = 0; k < PACKED_ENTRIES; k++, i++) {
      put_byte(&entries, 0x92);
      put_time(&entries, i);
      put_record(&entries, i);
    }
    put_byte(&b, 0x92);
    put_str(&b, "app.access");
    put_byte(&b, 0xc6);
    uint32_t n = __builtin_bswap32((uint32_t)entries.length);
    put(&b, &n, 4);
    put(&b, entries.bytes, entries.length);
    free(entries.bytes);
  }
  return b;
}

static uint64_t number(const uint8_t *p, int width) {
  uint64_t n = 0;
  for (int i = 0; i < width; i++) n = n << 8 | p[i];
  return n;
}

/* The plain skipper: how far one item goes, or 0 where it isn't whole, is reserved or nests too deep. */
static size_t skip(const uint8_t *bytes, size_t length, size_t at) {
  uint64_t missing[65];
  int depth = 0;
  missing[0] = 1;
  size_t i = at;
  while (depth >= 0) {
    if (missing[depth] == 0) {
      depth--;
      continue;
    }
    missing[depth]--;
    if (i >= length) return 0;
    uint8_t b = bytes[i++];
    uint64_t content = 0, items = 0;
    int width = 0, container = 0;
    if (b < 0x80 || b >= 0xe0 || b == 0xc0 || b == 0xc2 || b == 0xc3) {
      continue;
    } else if (b < 0x90) {
      container = 1;
      items = 2 * (b & 15);
    } else if (b < 0xa0) {
      container = 1;
      items = b & 15;
    } else if (b < 0xc0) {
      content = b & 31;
    } else {
      switch (b) {
        case 0xc4: case 0xd9: width = 1; break;
        case 0xc5: case 0xda: width = 2; break;
        case 0xc6: case 0xdb: width = 4; break;
        case 0xc7: width = 1; content = 1; break;
        case 0xc8: width = 2; content = 1; break;
        case 0xc9: width = 4; content = 1; break;
        case 0xca: case 0xce: case 0xd2: content = 4; break;
        case 0xcb: case 0xcf: case 0xd3: content = 8; break;
        case 0xcc: case 0xd0: content = 1; break;
        case 0xcd: case 0xd1: content = 2; break;
        case 0xd4: content = 2; break;
        case 0xd5: content = 3; break;
        case 0xd6: content = 5; break;
        case 0xd7: content = 9; break;
        case 0xd8: content = 17; break;
        case 0xdc: case 0xde: width = 2; container = 1; break;
        case 0xdd: case 0xdf: width = 4; container = 1; break;
        default: return 0;
      }
      if (width) {
        if (length - i < (size_t)width) return 0;
        uint64_t n = number(bytes + i, width);
        i += width;
        if (container) items = b >= 0xde ? 2 * n : n;
        else content += n;
      }
    }
    if (container) {
      if (depth == 64) return 0;
      missing[++depth] = items;
    } else {
      if (length - i < content) return 0;
      i += content;
    }
  }
  return i;
}

static size_t skip_all(const uint8_t *bytes, size_t length) {
  size_t count = 0;
  for (size_t at = 0; at < length; count++) {
    at = skip(bytes, length, at);
    if (at == 0) break;
  }
  return count;
}

static size_t unpack_all(const uint8_t *bytes, size_t length) {
  size_t count = 0, at = 0;
  msgpack_unpacked unpacked;
  msgpack_unpacked_init(&unpacked);
  while (msgpack_unpack_next(&unpacked, (const char *)bytes, length, &at) == MSGPACK_UNPACK_SUCCESS) count++;
  msgpack_unpacked_destroy(&unpacked);
  return count;
}

/* msgpack-c on PackedForward: the outer message, then each packed entry of its bin. */
static size_t unpack_packed(const uint8_t *bytes, size_t length) {
  size_t count = 0, at = 0;
  msgpack_unpacked outer, inner;
  msgpack_unpacked_init(&outer);
  msgpack_unpacked_init(&inner);
  while (msgpack_unpack_next(&outer, (const char *)bytes, length, &at) == MSGPACK_UNPACK_SUCCESS) {
    const msgpack_object_bin *bin = &outer.data.via.array.ptr[1].via.bin;
    size_t in = 0;
    while (msgpack_unpack_next(&inner, bin->ptr, bin->size, &in) == MSGPACK_UNPACK_SUCCESS) {
    }
    count++;
  }
  msgpack_unpacked_destroy(&outer);
  msgpack_unpacked_destroy(&inner);
  return count;
}

static size_t scan_all(const uint8_t *bytes, size_t length) { return relaynet_scan_all(bytes, length); }
static size_t read_all(const uint8_t *bytes, size_t length) { return relaynet_read_all(bytes, length); }
static size_t feed_whole(const uint8_t *bytes, size_t length) { return relaynet_feed_all(bytes, length, length); }
static size_t feed_pieces(const uint8_t *bytes, size_t length) { return relaynet_feed_all(bytes, length, 65536); }

typedef struct {
  const char *name;
  size_t (*run)(const uint8_t *, size_t);
  double best;
  size_t count;
} Row;

static double now(void) {
  struct timespec t;
  clock_gettime(CLOCK_MONOTONIC, &t);
  return t.tv_sec + t.tv_nsec * 1e-9;
}

static void measure(const char *title, Buffer b, Row *rows, size_t n) {
  for (int turn = 0; turn < TURNS; turn++) {
    for (size_t i = 0; i < n; i++) {
      double start = now();
      rows[i].count = rows[i].run(b.bytes, b.length);
      double took = now() - start;
      if (turn == 0 || took < rows[i].best) rows[i].best = took;
    }
  }
  printf("%s, %zu bytes\n", title, b.length);
  printf("  %-34s %10s %10s %8s\n", "", "MB/s", "speed", "messages");
  for (size_t i = 0; i < n; i++)
    printf("  %-34s %10.0f %10.2f %8zu\n", rows[i].name, b.length / rows[i].best / 1e6, rows[0].best / rows[i].best,
           rows[i].count);
}

int main(void) {
  Buffer messages = message_mode();
  Row scans[] = {{"plain C skipper", skip_all, 0, 0}, {"relaynet scan", scan_all, 0, 0}};
  measure("Message mode, where items end (speed: beside the C skipper)", messages, scans, 2);
  Row small[] = {{"plain C skipper", skip_all, 0, 0}, {"relaynet scan", scan_all, 0, 0}};
  measure("arrays of 1,000 one-byte items, where they end (speed: beside the C skipper)", one_byte_items(), small, 2);
  Row reads[] = {{"msgpack-c unpack", unpack_all, 0, 0}, {"relaynet read", read_all, 0, 0}};
  measure("Message mode, whole messages (speed: beside msgpack-c)", messages, reads, 2);
  Row feeds[] = {{"one whole piece", feed_whole, 0, 0}, {"pieces of 65,536 bytes", feed_pieces, 0, 0}};
  measure("Message mode, a feed (speed: beside one piece)", messages, feeds, 2);
  Buffer packed = packed_forward();
  Row packs[] = {{"msgpack-c unpack", unpack_packed, 0, 0}, {"relaynet read", read_all, 0, 0}};
  measure("PackedForward of 1,000 entries (speed: beside msgpack-c)", packed, packs, 2);
  return 0;
}
