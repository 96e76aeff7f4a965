int main(void) {
  char *p;
  char *q;
  p = malloc(sizeof(char));
  q = p;
  free(p);
  free(q);
  return 0;
}
