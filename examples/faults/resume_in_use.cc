_Coroutine Self {
    void main() { go(); }
  public:
    void go() { resume(); }
};
void uMain::main() {
    Self self;
    self.go();
}
