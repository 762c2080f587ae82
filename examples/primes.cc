// Prints the primes below 50, by a sieve.
const int N = 50;

void uMain::main() {
    bool composite[N];
    for (int i = 2; i < N; i++) {
        if (composite[i]) continue;
        cout << i << ' ';
        for (int j = i + i; j < N; j += i) composite[j] = true;
    }
    cout << endl;
}
