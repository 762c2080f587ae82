// Prints a sum: the shortest journal that prints.
void uMain::main() { cout << 1 + 2 << endl; }
