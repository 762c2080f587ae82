// Sums of numbers, and a line for each.
void uMain::main() {
  cout << 1 + 2 << endl;
  cout << 10 + 20 + 30 << endl << 2147483647 << endl;
}
