_Task Buf { int front, back, count, slot[2];
  void main() { _When (count == 5) _Accept(insert) { cout << "never"; }
    cout << "on ";
    for (;;) { _Accept(~Buf) { break; } or _When (count != 2) _Accept(insert) {}
      or _When (count != 0) _Accept(remove) {} }
    cout << "closed" << endl; }
  public: void insert(int v) { slot[back] = v; back = (back + 1) % 2; count += 1; }
  int remove() { int v = slot[front]; front = (front + 1) % 2; count -= 1; return v; } };
void uMain::main() { Buf b; b.insert(1); b.insert(2);
  cout << b.remove() << b.remove() << endl; }
