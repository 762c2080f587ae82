// The moves of a tower of three disks, by recursion; a reference counts them.
void shift(int disks, char from, char to, char over, int & moves) {
    if (disks == 0) return;
    shift(disks - 1, from, over, to, moves);
    cout << from << to << ' ';
    moves++;
    shift(disks - 1, over, to, from, moves);
}

void uMain::main() {
    int moves;
    shift(3, 'a', 'c', 'b', moves);
    cout << moves << endl;
}
