/* A leak: the old title is not freed before the new one is put in its place. */
struct book {
  char *title;
};

void set_title(struct book *book, int size) {
  book->title = malloc(size);
}

int main(void) { return 0; }
