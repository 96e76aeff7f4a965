/* A double free: `set_name` keeps what it is given, and its caller frees it too. */
struct person {
  char *name;
};

void set_name(struct person *person, char *name) {
  free(person->name);
  person->name = name;
}

void person_free(struct person *person) {
  free(person->name);
  free(person);
}

int main(void) {
  struct person *person = calloc(1, sizeof(struct person));
  char *name;
  if (person == NULL) return 1;
  name = malloc(8);
  set_name(person, name);
  free(name);
  person_free(person);
  return 0;
}
