void main() {x;}
