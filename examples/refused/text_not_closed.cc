void uMain::main() { cout << "hello; }
