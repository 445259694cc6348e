// repeat FILE BYTES: the dump in FILE with its body repeated, at shifted times, until it has at least BYTES bytes; to standard output.
#include <stdio.h>
#include <stdlib.h>
#include <string.h>

int main(int argc, char **argv) {
  FILE *f;
  if (argc < 3 || !(f = fopen(argv[1], "rb"))) return 2;
  fseek(f, 0, SEEK_END);
  long len = ftell(f);
  rewind(f);
  char *text = malloc(len + 1);
  if (fread(text, 1, len, f) != (size_t)len) return 2;
  text[len] = 0;
  char *body = strstr(text, "$enddefinitions");
  if (!body || !(body = strstr(body, "$end\n"))) return 2;
  body += 5;
  fwrite(text, 1, body - text, stdout);
  unsigned long long written = body - text, wanted = strtoull(argv[2], 0, 10), offset = 0, last = 0;
  while (written < wanted) {
    for (char *line = body; *line;) {
      char *end = strchr(line, '\n');
      size_t n = end ? (size_t)(end - line) + 1 : strlen(line);
      if (*line == '#') {
        last = offset + strtoull(line + 1, 0, 10);
        written += printf("#%llu\n", last);
      } else {
        fwrite(line, 1, n, stdout);
        written += n;
      }
      line += n;
    }
    offset = last + 1;
  }
  return 0;
}
