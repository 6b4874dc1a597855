// Prints 1, and then 2 without end.
void main() {
  print(1);
  while (true) {
    print(2);
  }
}
