// Clusters: a cook works where a stove is. The cooks move to the cluster of the kitchen, and only its processors run there; one
// stove serves one cook at a time, and the block that waits for them stays where it was.
_Task Cook {
    uCluster & kitchen;
    char name;
    void main() {
        migrate(kitchen);
        for (int i = 0; i < 2; i++) {
            cout << name << ' ';
            yield();
        }
    }
  public:
    Cook(uCluster & kitchen, char name) : kitchen(kitchen), name(name) { }
};

void uMain::main() {
    uCluster kitchen;
    uProcessor stove(kitchen);
    {
        Cook anna(kitchen, 'a'), bert(kitchen, 'b');
        cout << "lights on: ";
    }
    cout << "closed" << endl;
}

// Its journal, with one opening processor:
//
//     cluster 0 0 0 0 1 0 0 0 18    cluster 1 is made; number 0 is that of the opening
//     proc 0 0 0 0 1 1 0 0 19       processor 1 (a) is made, for cluster 1 (b)
//     make 0 0 1 1 1 0 0 0 21       object 1, a cook; task 1, which begins on the cluster of its maker, 0
//     spawn 0 0 0 1 1 0 0 0 21
//     ..
//     call 0 0 0 2 0 0 0 0 20       task 0 waits for the second cook to end
//     dispatch 0 1 0 0 0 0 0 0 0    processor 0 takes task 1
//     migrate 0 1 0 0 1 0 0 0 7     which goes to the back of the ready queue of cluster 1
//     dispatch 0 2 0 0 0 0 0 0 0
//     migrate 0 2 0 0 1 0 0 0 7
//     dispatch 1 1 0 0 0 0 0 0 0    now processor 1, the stove, takes task 1: the word behind dispatch is the processor
//     print 1 1 1 0 1 97 0 0 9
//     print 1 1 0 0 1 32 0 0 9
//     yield 1 1 0 0 0 0 0 0 10
//     dispatch 1 2 0 0 0 0 0 0 0    and task 2, in turn
