void main() {
  bool b = 1;
}
