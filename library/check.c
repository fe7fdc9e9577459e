/* Checks the release of a folder against a certificate, as `lpis check DIR CERT` does, by the library.
 *
 *     cc check.c liblpis.a -o check && ./check DIR CERT
 */
#include "lpis.h"

#include <stdio.h>
#include <stdlib.h>

struct bytes {
  uint8_t *at;
  size_t length;
};

static struct bytes read_file(const char *path) {
  FILE *file = fopen(path, "rb");
  struct bytes read = {0};
  if (!file || fseek(file, 0, SEEK_END)) perror(path), exit(LPIS_FAILED);
  read.length = (size_t)ftell(file);
  read.at = malloc(read.length + 1); /* never null, also of an empty file */
  rewind(file);
  if (!read.at || fread(read.at, 1, read.length, file) != read.length) perror(path), exit(LPIS_FAILED);
  fclose(file);
  return read;
}

static struct bytes read_table(const char *folder, const char *name) {
  char path[4096];
  snprintf(path, sizeof path, "%s/%s.csv", folder, name);
  return read_file(path);
}

int main(int count, char **words) {
  if (count != 3) return fprintf(stderr, "usage: %s DIR CERT\n", words[0]), LPIS_UNREADABLE;
  struct bytes parcels = read_table(words[1], "parcels"), covers = read_table(words[1], "covers");
  struct bytes classes = read_table(words[1], "classes"), cert = read_file(words[2]);
  struct lpis_reply reply = {.length = 256};
  struct bytes room = {0};
  bool is_answered = false;
  /* Once more with the room that is needed, where the first one is too small. */
  while (!is_answered && reply.length > room.length) {
    room.length = reply.length;
    room.at = realloc(room.at, room.length);
    if (!room.at) break;
    is_answered = lpis_check(parcels.at, parcels.length, covers.at, covers.length, classes.at, classes.length,
                             cert.at, cert.length, room.at, room.length, &reply);
  }
  if (!is_answered) return fputs("no answer: out of memory, or a file is over 1 GiB\n", stderr), LPIS_FAILED;
  if (fwrite(room.at, 1, reply.length, stdout) != reply.length || fflush(stdout)) return LPIS_FAILED;
  return reply.status;
}
