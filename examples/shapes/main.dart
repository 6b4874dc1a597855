// Names one file that is there and one that isn't.
import 'area.dart';
import 'circle.dart';

void main() {
  int? side;
  print(side + 1);
}
