// A library of two files, with its directives in a wrong order.
part 'words.dart';
export 'main.dart' hide main;

void main() {
  print(4);
}
