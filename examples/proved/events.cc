_Event E { public: int n; E(int n) : n(n) {} };
_Event F {};
_Task T { void main() { _Accept(ready);
    try { _Enable <F> { cout << "f-done "; } _Enable { cout << "all-done"; } }
    _CatchResume(E & e) { cout << 'E' << e.n << ' '; } _CatchResume(F &) { cout << "F "; } cout << endl; }
  public: void ready() {} };
void uMain::main() { T t; _Resume E(1) _At t; _Resume E(2) _At t; _Resume F() _At t; t.ready(); }
