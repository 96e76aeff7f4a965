int main(void) {
  int mask = 0x10;
  return mask;
}
