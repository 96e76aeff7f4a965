int main(void) {
  int *p;
  p = malloc(sizeof(int));
  free(p);
  return 0;
}
