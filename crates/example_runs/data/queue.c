/* A queue: `first` owns the items, `last` only looks at the one behind which the next is put. */
struct item {
  int value;
  struct item *next;
};

struct queue {
  struct item *first;
  struct item *last;
};

struct queue *queue_new(void) {
  struct queue *queue = malloc(sizeof(struct queue));
  if (queue == NULL) return NULL;
  queue->first = NULL;
  queue->last = NULL;
  return queue;
}

int enqueue(struct queue *queue, int value) {
  struct item *last = queue->last;
  struct item *item = malloc(sizeof(struct item));
  if (item == NULL) return 0;
  item->value = value;
  if (last == NULL) {
    if (queue->first == NULL) {
      item->next = NULL;
      queue->first = item;
      queue->last = item;
      return 1;
    }
  } else if (last->next == NULL) {
    item->next = NULL;
    last->next = item;
    queue->last = item;
    return 1;
  }
  free(item);
  return 0;
}

int dequeue(struct queue *queue) {
  struct item *item;
  int value;
  if (queue->first == NULL) return -1;
  item = queue->first;
  value = item->value;
  queue->first = item->next;
  free(item);
  if (queue->first == NULL) queue->last = NULL;
  return value;
}

void queue_free(struct queue *queue) {
  struct item *item = queue->first;
  struct item *next;
  while (item != NULL) {
    next = item->next;
    free(item);
    item = next;
  }
  free(queue);
}

int main(void) {
  struct queue *queue = queue_new();
  int value;
  if (queue == NULL) return 1;
  enqueue(queue, 1);
  enqueue(queue, 2);
  value = dequeue(queue);
  queue_free(queue);
  return value;
}
