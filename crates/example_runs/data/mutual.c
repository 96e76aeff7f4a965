/* Two procedures that free a list in turns. */
struct node {
  int value;
  struct node *next;
};

void free_odd(struct node *node);

void free_even(struct node *node) {
  struct node *next;
  if (node == NULL) return;
  next = node->next;
  free(node);
  free_odd(next);
}

void free_odd(struct node *node) {
  struct node *next;
  if (node == NULL) return;
  next = node->next;
  free(node);
  free_even(next);
}

int main(void) {
  struct node *list = malloc(sizeof(struct node));
  if (list == NULL) return 1;
  list->next = NULL;
  free_even(list);
  return 0;
}
