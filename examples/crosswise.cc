// Each of two tasks is inside one desk and wants the other: a deadlock.
_Monitor Desk {
    int notes;
  public:
    void note() { notes++; }
    void both(Desk & other) {
        yield();
        other.note();
    }
};

_Task Clerk {
    Desk & first;
    Desk & second;
    void main() { first.both(second); }
  public:
    Clerk(Desk & first, Desk & second) : first(first), second(second) { }
};

void uMain::main() {
    Desk left, right;
    { Clerk one(left, right), two(right, left); }
    cout << "never" << endl;
}
