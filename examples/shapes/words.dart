// The other file of the library, which declares a name again.
part of 'area.dart';

void main() {
  print(true + 1);
}
