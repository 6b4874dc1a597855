void main() {int y; print(y);}
