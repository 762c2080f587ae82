void uMain::main() {
    uCluster kitchen;
    uProcessor stove(kitchen);
    migrate(kitchen);
    cout << "cooking" << endl;
}
