int pick(void);
int main(void) {
  int *p = NULL;
  if (pick()) p = malloc(sizeof(int));
  free(p);
  return 0;
}
