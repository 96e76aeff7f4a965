typedef struct node *list;
int main(void) { return 0; }
