void uMain::main() { /* not closed
