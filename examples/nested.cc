// A monitor within a monitor: who waits in the inner one still holds the outer one, and the way to the signal leads through that.
_Monitor Lock {
    uCondition opened;
    bool open;
  public:
    void pass() { if (!open) opened.wait(); }
    void unlock() {
        open = true;
        opened.signal();
    }
};

_Monitor House {
    Lock lock;
  public:
    void enter() { lock.pass(); }
    void unlock() { lock.unlock(); }
};

_Task Guest {
    House & house;
    void main() { house.enter(); }
  public:
    Guest(House & house) : house(house) { }
};

void uMain::main() {
    House house;
    {
        Guest guest(house);
        yield();
        house.unlock();
    }
    cout << "never" << endl;
}
