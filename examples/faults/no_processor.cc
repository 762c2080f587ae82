_Task Mover {
    uCluster & other;
    void main() {
        cout << "moving" << endl;
        migrate(other);
    }
  public:
    Mover(uCluster & other) : other(other) { }
};
void uMain::main() {
    uCluster other;
    Mover mover(other);
}
