/* A list of numbers: each node owns the rest of the list. */
struct node {
  int value;
  struct node *next;
};

struct node *push(struct node *list, int value) {
  struct node *node = malloc(sizeof(struct node));
  if (node == NULL) return list;
  node->value = value;
  node->next = list;
  return node;
}

int sum(struct node *list) {
  int total = 0;
  while (list != NULL) {
    total = total + list->value;
    list = list->next;
  }
  return total;
}

/* The list without the first node that holds the value. */
struct node *without(struct node *list, int value) {
  struct node *rest;
  if (list == NULL) return NULL;
  if (list->value == value) {
    rest = list->next;
    free(list);
    return rest;
  }
  list->next = without(list->next, value);
  return list;
}

void list_free(struct node *list) {
  struct node *next;
  while (list != NULL) {
    next = list->next;
    free(list);
    list = next;
  }
}

int main(void) {
  struct node *list = NULL;
  int i;
  int total;
  for (i = 0; i < 10; i++)
    list = push(list, i);
  list = without(list, 3);
  total = sum(list);
  list_free(list);
  return total;
}
