void uMain::main() {
    count = 3;
    cout << count << endl;
}
