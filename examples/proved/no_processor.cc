void uMain::main() { cout << "a"; uCluster c; migrate(c); cout << "b"; }
