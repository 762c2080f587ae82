_Event Wrong { };
_Task Server {
    void main() {
        _Accept (ask) { cout << "answered" << endl; }
    }
  public:
    void ask() { _Throw Wrong(); }
};
void uMain::main() {
    Server server;
    try {
        server.ask();
    } catch (Wrong &) { cout << "the caller sees it" << endl; }
}
