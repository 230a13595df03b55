// Quests, by an interface: the game reports events, and a quest that is done earns gold.
//
// An event is a number: 1 somebody was beaten, 2 something was found, 3 a way was walked. Its amount says how many, what,
// or how far.

interface Quest {
    // whether the quest is done by this event
    bool hear(int event, int amount);
    int reward();
}

class Beat : Quest {
    int left;
    int pays;

    Beat(int many, int gold) { left = many; pays = gold; }

    bool hear(int event, int amount) {
        if (event != 1) return false;
        left -= amount;
        return left <= 0;
    }

    int reward() { return pays; }
}

class Find : Quest {
    int wanted;

    Find(int what) { wanted = what; }

    bool hear(int event, int amount) { return event == 2 && amount == wanted; }

    int reward() { return wanted * 10; }
}

// A walk earns more, the more steps it takes.
class Walk : Quest {
    int steps;
    int walked;
    int stops;

    Walk(int far) { steps = far; }

    bool hear(int event, int amount) {
        if (event != 3) return false;
        walked += amount;
        stops++;
        return walked >= steps;
    }

    int reward() { return 5 * stops; }
}

array<Quest@> open;
int done;
int best;

int beat(int many, int gold) { return add(Beat(many, gold)); }
int find(int what) { return add(Find(what)); }
int walk(int far) { return add(Walk(far)); }

// How many quests are open.
int add(Quest@ quest) {
    open.insertLast(quest);
    return int(open.length());
}

// A quest is done: the service counts what it earns, and the last open one moves into its place.
void finish(int at) {
    int gold = open[at].reward();
    tally(gold);
    done++;
    if (gold > best) best = gold;
    @open[at] = open[open.length() - 1];
    open.removeLast();
}

// An event. How many quests it has done.
int report(int event, int amount) {
    int before = done;
    int at = 0;
    while (at < int(open.length())) {
        if (open[at].hear(event, amount)) finish(at);
        else at++;
    }
    return done - before;
}

// How many beatings are still wanted, over all quests of that sort.
int wanted() {
    int sum = 0;
    for (uint i = 0; i < open.length(); i++) {
        Beat@ fight = cast<Beat>(open[i]);
        if (fight !is null) sum += fight.left;
    }
    return sum;
}

// What was earned and not yet paid out. The market pays it.
int earned() { return total(); }

// A spell that never ends: the host stops it.
void enchant() {
    for (;;) done += 0;
}
