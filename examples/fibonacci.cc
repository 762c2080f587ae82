// The numbers of Fibonacci, one for each resume. The coroutine never ends: it is unwound where its block ends.
class Note {
  public:
    ~Note() { cout << "gone" << endl; }
};

_Coroutine Fibonacci {
    int number;
    void main() {
        Note note;
        int next = 1, other = 0;
        for (;;) {
            number = other;
            other = next;
            next += number;
            suspend();
        }
    }
  public:
    int next() {
        resume();
        return number;
    }
};

void uMain::main() {
    {
        Fibonacci fibonacci;
        for (int i = 0; i < 10; i++) cout << fibonacci.next() << ' ';
        cout << endl;
    }
    cout << "end" << endl;
}
