void uMain::main() {
    cout << "hello" << endl
}
