// Four visitors come to a turnstile that lets in one at a time, and each stays a while: who waits comes in by age, the oldest first.
_Monitor Turnstile {
    int visits;
  public:
    void pass(char name, int turns) {
        visits++;
        cout << name << visits << ' ';
        for (int i = 0; i < turns; i++) yield();
    }
};

_Task Visitor {
    Turnstile & gate;
    char name;
    void main() {
        gate.pass(name, 2);
        gate.pass(name, 0);
    }
  public:
    Visitor(Turnstile & gate, char name) : gate(gate), name(name) { }
};

void uMain::main() {
    Turnstile gate;
    { Visitor a(gate, 'a'), b(gate, 'b'), c(gate, 'c'), d(gate, 'd'); }
    cout << endl;
}
