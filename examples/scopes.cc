// When objects begin and end: fields before what has them, an array from the first element on, all of it backwards at the end
// of a block, and on every way out of it.
class Part {
    char name;
  public:
    Part(char name) : name(name) { cout << '+' << name; }
    ~Part() { cout << '-' << name; }
};

class Wheel {
    Part rim;
  public:
    Wheel() : rim('r') { }
};

class Cart {
    Wheel wheels[2];
    Part box;
  public:
    Cart(char name) : box(name) { cout << '!'; }
    ~Cart() { cout << '?'; }
};

void ride(int turns) {
    for (int turn = 1; turn <= turns; turn++) {
        Part horse('h');
        if (turn == 1) continue;
        Cart cart('c');
        if (turn == 3) return;
        cout << ' ';
    }
    cout << " at home";
}

void uMain::main() {
    for (int turns = 1; turns <= 3; turns++) {
        ride(turns);
        cout << endl;
    }
}
