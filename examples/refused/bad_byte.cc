void uMain::main() { int x = 07; }
