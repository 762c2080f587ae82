// The first program of docs/use: greets, and counts to three.
void uMain::main() {
    cout << "hello" << endl;
    for (int i = 1; i <= 3; i++) cout << i << ' ';
    cout << endl;
}
