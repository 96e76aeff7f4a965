/* A leak: the first line's memory is lost in the second turn of the loop. */
int read_line(char *line, int room);

int main(void) {
  char *line = NULL;
  int more = 1;
  while (more) {
    line = malloc(80);
    more = read_line(line, 80);
  }
  free(line);
  return 0;
}
