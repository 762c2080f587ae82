void uMain::main() {
    int big = 9223372036854775807;
    cout << big + 1;
}
