int sum(int n) {
    return n + sum(n - 1);
}
void uMain::main() { cout << sum(10); }
