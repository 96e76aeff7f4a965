/* A constructor that gives back nothing where memory runs out halfway, and a destructor. */
struct person {
  char *name;
  int age;
};

char *copy(char *text) {
  int size = 0;
  int i;
  char *bytes;
  while (text[size] != '\0') size++;
  bytes = malloc(size + 1);
  if (bytes == NULL) return NULL;
  for (i = 0; i <= size; i++) bytes[i] = text[i];
  return bytes;
}

struct person *person_new(char *name, int age) {
  struct person *person = malloc(sizeof(struct person));
  if (person == NULL) return NULL;
  person->age = age;
  person->name = copy(name);
  if (person->name == NULL) {
    free(person);
    return NULL;
  }
  return person;
}

void person_free(struct person *person) {
  if (person == NULL) return;
  free(person->name);
  free(person);
}

int main(void) {
  struct person *ada = person_new("ada", 36);
  int age;
  if (ada == NULL) return 1;
  age = ada->age;
  person_free(ada);
  return age;
}
