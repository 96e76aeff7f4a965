/* Two fields are open at once: between the two statements both `before` and `gone` lead to the rest of the list. */
struct node {
  int value;
  struct node *next;
};

void cut(struct node *before) {
  struct node *gone = before->next;
  struct node *rest = gone->next;
  before->next = rest;
  free(gone);
}

int main(void) { return 0; }
