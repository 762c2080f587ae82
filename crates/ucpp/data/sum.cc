void uMain::main() { cout << 1 + 2 << endl; }
