/* A node that leads to itself is never freed: `keeps` says that this may be. */
struct node {
  int value;
  struct node *next;
};

int main(void) {
  struct node *ring = malloc(sizeof(struct node));
  if (ring == NULL) return 0;
  ring->next = ring;
  return 0;
}
