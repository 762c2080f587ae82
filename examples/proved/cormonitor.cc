_Cormonitor Two { void main() { cout << "one "; suspend(); cout << "two "; }
  public: void step() { resume(); } };
_Task A { Two & t; int n; void main() { t.step(); cout << n << ' '; }
  public: A(Two & t, int n) : t(t), n(n) {} };
void uMain::main() { Two t; { A a(t, 1); } { A b(t, 2); } cout << "end" << endl; }
