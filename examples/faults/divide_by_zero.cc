void uMain::main() {
    int parts = 0;
    cout << 100 / parts;
}
