_Event First { };
_Event Second { };
class Loud {
  public:
    ~Loud() { _Throw Second(); }
};
void uMain::main() {
    try {
        Loud loud;
        _Throw First();
    } catch (...) { cout << "never"; }
}
