void uMain::main() {
    int table[4097];
    table[0] = 1;
}
