_Monitor M { int n; public: void add(int k) { n = n + k; } int get() { return n; } };
_Task T { M & m; void main() { m.add(2); } public: T(M & m) : m(m) {} };
void uMain::main() { M m; { T a(m); m.add(1); } cout << m.get(); }
