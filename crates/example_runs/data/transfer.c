struct point { int x; int y; };
int main(void) {
  struct point *made;
  struct point *kept;
  made = malloc(sizeof(struct point));
  kept = made;
  free(kept);
  return 0;
}
