int main(void) {
  int *p;
  p = malloc(sizeof(int));
  return 0;
}
