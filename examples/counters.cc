// Two coroutines that count, each in steps of its own.
_Coroutine Counter {
    int step, count;
    void main() {
        for (;;) {
            count += step;
            suspend();
        }
    }
  public:
    Counter(int step) : step(step) { }
    int next() { resume(); return count; }
};

void uMain::main() {
    Counter ones(1), tens(10);
    for (int i = 0; i < 3; i++) cout << ones.next() + tens.next() << endl;
}
