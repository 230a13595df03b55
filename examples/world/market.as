// The market: what is sold, who owns what, and chests to keep things in.
//
// A kind of item is a number from 1 to 4, since scripts have no strings: 1 a torch, 2 a sword, 3 a shield, 4 a crown.

int priceOf(int kind) {
    switch (kind) {
        case 1: return 5;
        case 2: return 40;
        case 3: return 35;
        case 4: return 500;
        default: return 0;
    }
}

class Item {
    int kind;
    int wear;

    Item(int made) { kind = made; }

    // a quarter of the price is gone with each use
    int worth() {
        int lost = priceOf(kind) * wear / 4;
        return wear >= 4 ? 0 : priceOf(kind) - lost;
    }
}

class Player {
    int gold;
    array<Item@> bag;
    Chest@ chest;

    Player(int start) { gold = start; }

    bool pay(int price) {
        if (gold < price) return false;
        gold -= price;
        return true;
    }

    // where the first item of a kind is in the bag, or -1
    int find(int kind) {
        for (uint i = 0; i < bag.length(); i++) {
            if (bag[i].kind == kind) return int(i);
        }
        return -1;
    }

    // takes an item out of the bag; the last one moves into its place
    Item@ take(int at) {
        Item@ taken = bag[at];
        @bag[at] = bag[bag.length() - 1];
        bag.removeLast();
        return taken;
    }

    int worth() {
        int sum = gold;
        for (uint i = 0; i < bag.length(); i++) sum += bag[i].worth();
        return sum;
    }
}

class Shelf {
    int kind;
    int left;

    Shelf(int offered, int many) { kind = offered; left = many; }
}

class Shop {
    array<Shelf@> shelves;
    int takings;

    void stock(int kind, int many) { shelves.insertLast(Shelf(kind, many)); }

    Shelf@ shelfOf(int kind) {
        for (uint i = 0; i < shelves.length(); i++) {
            if (shelves[i].kind == kind) return shelves[i];
        }
        return null;
    }

    bool sell(Player@ buyer, int kind) {
        Shelf@ shelf = shelfOf(kind);
        if (shelf is null || shelf.left == 0) return false;
        if (!buyer.pay(priceOf(kind))) return false;
        shelf.left--;
        takings += priceOf(kind);
        buyer.bag.insertLast(Item(kind));
        return true;
    }
}

Shop@ shop = Shop();
array<Player@> players;

void open() {
    shop.stock(1, 100);
    shop.stock(2, 3);
    shop.stock(3, 2);
    shop.stock(4, 1);
}

// A new player. The result is the player's number.
int join(int gold) {
    players.insertLast(Player(gold));
    return int(players.length()) - 1;
}

// What the player has left, or -1 if nothing was sold.
int buy(int player, int kind) {
    Player@ buyer = players[player];
    return shop.sell(buyer, kind) ? buyer.gold : -1;
}

// An item loses worth by each use. What it is worth then.
int use(int player, int kind) {
    Player@ user = players[player];
    Item@ item = user.bag[user.find(kind)];
    item.wear++;
    return item.worth();
}

// A chest costs 10, and 1 more for each place in it.
bool buyChest(int player, int capacity) {
    Player@ buyer = players[player];
    if (!buyer.pay(10 + capacity)) return false;
    @buyer.chest = Chest(capacity);
    return true;
}

// Puts an item into the chest. If the chest is full, that is an exception, and the item stays in the bag.
int stash(int player, int kind) {
    Player@ owner = players[player];
    int at = owner.find(kind);
    if (at < 0) return -1;
    owner.chest.put(kind);
    owner.take(at);
    return owner.chest.count;
}

// Takes the last item out of the chest, as good as new. Its kind.
int fetch(int player) {
    Player@ owner = players[player];
    int kind = owner.chest.take();
    owner.bag.insertLast(Item(kind));
    return kind;
}

// Pays out what quests have earned, which the service counts for both modules.
int collect(int player) {
    int earned = total();
    tally(-earned);
    players[player].gold += earned;
    return players[player].gold;
}

int worth(int player) { return players[player].worth(); }

// A player leaves. What was the player's is gone, the chest too.
void leave(int player) { @players[player] = null; }
