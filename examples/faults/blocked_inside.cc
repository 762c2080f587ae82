_Cormonitor Door {
    uCondition opened;
    void main() { opened.wait(); }
  public:
    void knock() { resume(); }
};
void uMain::main() {
    Door door;
    door.knock();
}
