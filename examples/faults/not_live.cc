_Coroutine Pong;
_Coroutine Ping {
    Pong & partner;
    void main() { }
  public:
    Ping(Pong & partner);
};
_Coroutine Pong {
    int hits;
    void main() { }
  public:
    void hit() { hits++; }
};
Ping::Ping(Pong & partner) : partner(partner) { partner.hit(); }
class Table {
    Ping ping;
    Pong pong;
  public:
    Table() : ping(pong) { }
};
void uMain::main() { Table table; }
