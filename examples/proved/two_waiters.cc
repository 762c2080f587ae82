_Monitor M { uCondition c, d; public: void w1() { c.wait(); cout << "c "; }
  void w2() { d.wait(); cout << "d "; }
  void go() { c.signal(); d.signal(); yield(); cout << "go "; }
  void late() { cout << "late "; } };
_Task A { M & m; void main() { m.w1(); } public: A(M & m) : m(m) {} };
_Task B { M & m; void main() { m.w2(); } public: B(M & m) : m(m) {} };
_Task C { M & m; void main() { m.go(); } public: C(M & m) : m(m) {} };
_Task D { M & m; void main() { m.late(); } public: D(M & m) : m(m) {} };
void uMain::main() { M m; { A a(m); B b(m); C c(m); D d(m); } cout << endl; }
