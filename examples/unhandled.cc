// An event that nobody takes ends the run by a fault, once the stack is unwound.
_Event Lost { };

class Guard {
  public:
    ~Guard() { cout << "left" << endl; }
};

void search(int depth) {
    Guard guard;
    if (depth == 0) _Throw Lost();
    search(depth - 1);
}

void uMain::main() {
    search(2);
}
