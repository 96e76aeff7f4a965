/* A leak: where the copy fails, `item` is forgotten. */
struct item {
  char *name;
  int price;
};

struct item *item_new(int size) {
  struct item *item = malloc(sizeof(struct item));
  char *name;
  if (item == NULL) return NULL;
  name = malloc(size);
  if (name == NULL) return NULL;
  item->name = name;
  return item;
}

int main(void) { return 0; }
