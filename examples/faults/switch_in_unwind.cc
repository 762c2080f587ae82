_Coroutine Tail {
    void main() { suspend(); }
  public:
    void go() { resume(); }
};
class Late {
    Tail & tail;
  public:
    Late(Tail & tail) : tail(tail) { }
    ~Late() { tail.go(); }
};
_Coroutine Head {
    Tail & tail;
    void main() {
        Late late(tail);
        suspend();
    }
  public:
    Head(Tail & tail) : tail(tail) { }
    void go() { resume(); }
};
void uMain::main() {
    Tail tail;
    Head head(tail);
    head.go();
}
