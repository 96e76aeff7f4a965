struct node { int value; };
int main(void) {
  struct node *node = malloc(sizeof(struct node));
  node->next = NULL;
  free(node);
  return 0;
}
