// When an object begins and when it ends. The register is borrowed by reference: it outlives the cells, since it was declared first.
class Register {
    int alive, most;
  public:
    ~Register() { cout << "at most " << most << " at once" << endl; }
    void come() { if (++alive > most) most = alive; }
    void go() { alive--; }
};

class Cell {
    Register & all;
    char name;
  public:
    Cell(Register & all, char name) : all(all), name(name) {
        all.come();
        cout << '+' << name << ' ';
    }
    ~Cell() {
        all.go();
        cout << '-' << name << ' ';
    }
};

class Pair {
    Cell first, second;
  public:
    Pair(Register & all) : first(all, 'f'), second(all, 's') { cout << "pair "; }
    ~Pair() { cout << "no pair "; }
};

void uMain::main() {
    Register all;
    for (int turn = 1; turn <= 2; turn++) {
        Cell cell(all, 'c');
        if (turn == 2) break;
        Pair pair(all);
        cout << "body ";
    }
    cout << endl;
}
