// Two loops. Each turn is a tick, and a thousand ticks fill a slice. Run it with --journal.
void uMain::main() {
    int sum;
    for (int i = 0; i < 1200; i++) sum += i % 3;
    cout << sum << endl;
    while (sum > 0) sum -= 2;
    cout << sum << endl;
}
