/* One procedure, called once with an owner and once with a pointer that only looks. */
int *same(int *p) { return p; }

int main(void) {
  int *made;
  int *kept;
  int *seen;
  made = malloc(sizeof(int));
  kept = same(made);
  seen = same(kept);
  seen[0] = 1;
  free(kept);
  return 0;
}
