/* A leak that one test too late makes: where `item` is NULL, the field that was taken out is never put back. */
struct item {
  int value;
  struct item *next;
};

struct queue {
  struct item *first;
};

int dequeue(struct queue *queue) {
  struct item *item = queue->first;
  int value;
  if (item == NULL) return -1;
  value = item->value;
  queue->first = item->next;
  free(item);
  return value;
}

int main(void) { return 0; }
