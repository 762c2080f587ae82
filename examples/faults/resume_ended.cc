_Coroutine Once {
    void main() { cout << "once" << endl; }
  public:
    void go() { resume(); }
};
void uMain::main() {
    Once once;
    once.go();
    once.go();
}
