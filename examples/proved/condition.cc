_Task S { uCondition c; void main() { _Accept(outer) { cout << "after "; } c.signal(); }
  void inner() { c.wait(); cout << "woken "; }
  public: void outer() { inner(); cout << "back "; } };
void uMain::main() { S s; s.outer(); cout << endl; }
