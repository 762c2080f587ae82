void uMain::main() {
    int cells[3], at = 3;
    cells[at] = 1;
}
