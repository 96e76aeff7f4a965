void drop(char *text) { free(text); }
