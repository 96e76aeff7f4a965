/* The library of `library.c` with one line forgotten. */
int write_byte(int byte);

struct text {
  char *bytes;
  int size;
  int room;
};

struct entry {
  struct text *name;
  struct text *number;
  struct entry *next;
};

struct book {
  struct entry *first;
  int size;
};

/* An empty text with room for so many bytes, or nothing. */
struct text *text_new(int room) {
  struct text *text = malloc(sizeof(struct text));
  if (text == NULL) return NULL;
  text->bytes = malloc(room);
  if (text->bytes == NULL) {
    free(text);
    return NULL;
  }
  text->size = 0;
  text->room = room;
  return text;
}

void text_free(struct text *text) {
  if (text == NULL) return;
  free(text->bytes);
  free(text);
}

/* Makes room for twice as many bytes. Says whether it did. */
int text_grow(struct text *text) {
  char *bytes = malloc(2 * text->room);
  char *old;
  int i;
  if (bytes == NULL) return 0;
  old = text->bytes;
  for (i = 0; i < text->size; i++)
    bytes[i] = old[i];
  free(old);
  text->bytes = bytes;
  text->room = 2 * text->room;
  return 1;
}

/* Adds a byte. Says whether there was room. */
int text_put(struct text *text, int byte) {
  if (text->size == text->room) {
    if (!text_grow(text)) return 0;
  }
  text->bytes[text->size] = byte;
  text->size++;
  return 1;
}

/* A text with the units of a string, or nothing. */
struct text *text_of(char *string) {
  struct text *text = text_new(8);
  int i;
  if (text == NULL) return NULL;
  for (i = 0; string[i] != '\0'; i++) {
    if (!text_put(text, string[i])) {
      text_free(text);
      return NULL;
    }
  }
  return text;
}

int text_same(struct text *a, struct text *b) {
  int i;
  if (a->size != b->size) return 0;
  for (i = 0; i < a->size; i++)
    if (a->bytes[i] != b->bytes[i]) return 0;
  return 1;
}

void text_write(struct text *text) {
  int i;
  for (i = 0; i < text->size; i++)
    write_byte(text->bytes[i]);
}

struct book *book_new(void) {
  struct book *book = malloc(sizeof(struct book));
  if (book == NULL) return NULL;
  book->first = NULL;
  book->size = 0;
  return book;
}

/* Adds an entry. Takes both texts, whether or not there is room. */
int book_add(struct book *book, struct text *name, struct text *number) {
  struct entry *entry = malloc(sizeof(struct entry));
  if (entry == NULL) {
    text_free(name);
    text_free(number);
    return 0;
  }
  entry->name = name;
  entry->number = number;
  entry->next = book->first;
  book->first = entry;
  book->size++;
  return 1;
}

/* Adds an entry of two strings. */
int book_add_strings(struct book *book, char *name, char *number) {
  struct text *first = text_of(name);
  struct text *second;
  if (first == NULL) return 0;
  second = text_of(number);
  if (second == NULL) return 0;
  return book_add(book, first, second);
}

/* The number that stands beside a name. It stays the book's. */
struct text *book_find(struct book *book, struct text *name) {
  struct entry *entry = book->first;
  while (entry != NULL) {
    if (text_same(entry->name, name)) return entry->number;
    entry = entry->next;
  }
  return NULL;
}

/* Takes the first entry out. */
void book_drop_first(struct book *book) {
  struct entry *entry;
  if (book->first == NULL) return;
  entry = book->first;
  book->first = entry->next;
  book->size--;
  text_free(entry->name);
  text_free(entry->number);
  free(entry);
}

void book_write(struct book *book) {
  struct entry *entry = book->first;
  while (entry != NULL) {
    text_write(entry->name);
    text_write(entry->number);
    entry = entry->next;
  }
}

void book_free(struct book *book) {
  struct entry *entry;
  struct entry *next;
  if (book == NULL) return;
  entry = book->first;
  while (entry != NULL) {
    next = entry->next;
    text_free(entry->name);
    text_free(entry->number);
    free(entry);
    entry = next;
  }
  free(book);
}

int main(void) {
  struct book *book = book_new();
  struct text *ada;
  struct text *number;
  if (book == NULL) return 1;
  if (!book_add_strings(book, "ada", "1815")) {
    book_free(book);
    return 1;
  }
  ada = text_of("ada");
  if (ada == NULL) {
    book_free(book);
    return 1;
  }
  number = book_find(book, ada);
  if (number != NULL) text_write(number);
  text_free(ada);
  book_write(book);
  book_free(book);
  return 0;
}
