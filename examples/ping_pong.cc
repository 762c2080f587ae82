// Two coroutines that resume each other, each where it stands at its own resume. The first to end goes back to whoever started
// it, and not to the one that resumed it last.
_Coroutine Pong;

_Coroutine Ping {
    Pong & partner;
    void main();
  public:
    Ping(Pong & partner) : partner(partner) { }
    void cycle() { resume(); }
};

_Coroutine Pong {
    Ping & partner;
    void main() {
        for (int i = 1; i <= 3; i++) {
            cout << "pong " << i << endl;
            partner.cycle();
        }
    }
  public:
    Pong(Ping & partner) : partner(partner) { }
    void cycle() { resume(); }
};

void Ping::main() {
    for (int i = 1; i <= 3; i++) {
        cout << "ping " << i << endl;
        partner.cycle();
    }
}

class Table {
    Ping ping;
    Pong pong;
  public:
    Table() : ping(pong), pong(ping) { }
    void play() { ping.cycle(); }
};

void uMain::main() {
    Table table;
    table.play();
    cout << "over" << endl;
}
