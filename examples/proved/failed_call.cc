_Event E {};
_Task T { void main() { try { _Accept(go) { cout << 'n'; } } _CatchResume(RendezvousFailure &) { cout << 'f'; } }
  public: void go() { _Throw E(); } };
void uMain::main() { T t; try { t.go(); } catch (E &) { cout << 'c'; } }
