// A program whose journal has a line of each kind that one task makes.
void uMain::main() {
    int n, sum;
    cin >> n;
    if (cin.fail()) return;
    for (int i = 1; i <= n; i++) sum += i;
    cout << "sum " << sum << endl;
    osacquire(cout) << sum / n << '!' << endl;
}
