/* A stack of texts. `push` takes its text in any case, `pop` hands it on. */
struct entry {
  char *text;
  struct entry *below;
};

struct stack {
  struct entry *top;
  int size;
};

int push(struct stack *stack, char *text) {
  struct entry *entry = malloc(sizeof(struct entry));
  if (entry == NULL) {
    free(text);
    return 0;
  }
  entry->text = text;
  entry->below = stack->top;
  stack->top = entry;
  stack->size++;
  return 1;
}

char *pop(struct stack *stack) {
  struct entry *entry;
  char *text;
  if (stack->top == NULL) return NULL;
  entry = stack->top;
  text = entry->text;
  stack->top = entry->below;
  stack->size--;
  free(entry);
  return text;
}

void stack_free(struct stack *stack) {
  struct entry *entry;
  struct entry *below;
  if (stack == NULL) return;
  entry = stack->top;
  while (entry != NULL) {
    below = entry->below;
    free(entry->text);
    free(entry);
    entry = below;
  }
  free(stack);
}

int main(void) {
  struct stack *stack = calloc(1, sizeof(struct stack));
  char *text;
  if (stack == NULL) return 1;
  push(stack, malloc(8));
  push(stack, malloc(8));
  text = pop(stack);
  free(text);
  stack_free(stack);
  return 0;
}
