void uMain::main() { int x = 9223372036854775808; }
