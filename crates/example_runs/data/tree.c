/* A search tree, freed from the leaves up. */
struct tree {
  int key;
  struct tree *left;
  struct tree *right;
};

struct tree *leaf(int key) {
  struct tree *tree = malloc(sizeof(struct tree));
  if (tree == NULL) return NULL;
  tree->key = key;
  tree->left = NULL;
  tree->right = NULL;
  return tree;
}

struct tree *insert(struct tree *tree, int key) {
  if (tree == NULL) return leaf(key);
  if (key < tree->key)
    tree->left = insert(tree->left, key);
  else
    tree->right = insert(tree->right, key);
  return tree;
}

int contains(struct tree *tree, int key) {
  while (tree != NULL) {
    if (tree->key == key) return 1;
    if (key < tree->key)
      tree = tree->left;
    else
      tree = tree->right;
  }
  return 0;
}

void tree_free(struct tree *tree) {
  if (tree == NULL) return;
  tree_free(tree->left);
  tree_free(tree->right);
  free(tree);
}

int main(void) {
  struct tree *tree = NULL;
  int found;
  tree = insert(tree, 5);
  tree = insert(tree, 3);
  found = contains(tree, 3);
  tree_free(tree);
  return found;
}
