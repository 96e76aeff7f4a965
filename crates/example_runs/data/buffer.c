/* A buffer of bytes that grows: the old bytes are taken out before new ones are put in. */
struct buffer {
  char *bytes;
  int size;
  int room;
};

struct buffer *buffer_new(int room) {
  struct buffer *buffer = malloc(sizeof(struct buffer));
  if (buffer == NULL) return NULL;
  buffer->bytes = malloc(room);
  buffer->size = 0;
  buffer->room = room;
  return buffer;
}

void grow(struct buffer *buffer) {
  int i;
  char *old = buffer->bytes;
  char *bytes = malloc(2 * buffer->room);
  for (i = 0; i < buffer->size; i++)
    bytes[i] = old[i];
  free(old);
  buffer->bytes = bytes;
  buffer->room = 2 * buffer->room;
}

void put(struct buffer *buffer, int byte) {
  if (buffer->size == buffer->room) grow(buffer);
  buffer->bytes[buffer->size] = byte;
  buffer->size++;
}

void buffer_free(struct buffer *buffer) {
  if (buffer == NULL) return;
  free(buffer->bytes);
  free(buffer);
}

int main(void) {
  struct buffer *buffer = buffer_new(4);
  int i;
  if (buffer == NULL) return 1;
  for (i = 0; i < 10; i++)
    put(buffer, 'a' + i);
  buffer_free(buffer);
  return 0;
}
