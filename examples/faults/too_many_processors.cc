void uMain::main() {
    uCluster all[64];
}
