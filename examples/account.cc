// Two tasks pay into one account, and each gives up its processor between reading the balance and writing it.
_Monitor Account {
    int balance;
  public:
    void pay(int n) { int old = balance; yield(); balance = old + n; }
    int get() { return balance; }
};

_Task Payer {
    Account & to;
    int n;
    void main() { to.pay(n); }
  public:
    Payer(Account & to, int n) : to(to), n(n) { }
};

void uMain::main() {
    Account account;
    { Payer one(account, 1), ten(account, 10); }
    cout << account.get() << endl;
}
