// Counts down from a value that may be null, and prints what it passes.
void main() {
  int? start;
  start = 3;
  if (start != null) {
    int left = start + 0;
    while (0 < left) {
      print(left);
      left = left + 0xFFFFFFFFFFFFFFFF; // as a hexadecimal literal is read, this is -1
    }
  }
  print(start);
}
